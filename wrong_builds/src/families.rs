//! Wrong builds of the judgement with a family list, of S-11 and S-12.

use crate::judgement::{asked_after, asked_before};
use second_judge::families::{Parents, LIST_HEADER};
use second_judge::files::{u16_at, Hour};
use second_judge::judgement::{holds, verdict_table, Table};
use second_judge::{Judgement, Papers, Verdict};

/// A build's entry with a family list.
pub type JudgeFamilies = fn(&[u8], &[u8], &[u8], &mut [u8]) -> Verdict;

/// Every wrong build, with its name.
pub static BUILDS: [(JudgeFamilies, &str); 23] = [
    (|c, p, l, r| EmptyIsNoFamilies.judge_families(c, p, l, r), "empty list: no families"),
    (|c, p, l, r| MarkNotAsked.judge_families(c, p, l, r), "16: any mark"),
    (|c, p, l, r| VersionNotAsked.judge_families(c, p, l, r), "16: any version"),
    (|c, p, l, r| LongerTaken.judge_families(c, p, l, r), "16: a longer list taken"),
    (|c, p, l, r| ListBeforeProposal.judge_families(c, p, l, r), "16 to 18 before 9"),
    (|c, p, l, r| ParentAtTheCount.judge_families(c, p, l, r), "17: the order count taken"),
    (|c, p, l, r| StraysTaken.judge_families(c, p, l, r), "17 not asked"),
    (|c, p, l, r| CirclesFirst.judge_families(c, p, l, r), "18 before 17"),
    (|c, p, l, r| IntoCircleRefused.judge_families(c, p, l, r), "18: into a circle refused"),
    (|c, p, l, r| SelfParentTaken.judge_families(c, p, l, r), "18: its own parent taken"),
    (|c, p, l, r| CirclesOfTwoTaken.judge_families(c, p, l, r), "18: circles of two taken"),
    (|c, p, l, r| LastOnACircle.judge_families(c, p, l, r), "18: the last one named"),
    (|c, p, l, r| CirclesNotAsked.judge_families(c, p, l, r), "18 not asked"),
    (|c, p, l, r| WithoutQuantities.judge_families(c, p, l, r), "28: without quantities"),
    (|c, p, l, r| EqualFractionsRefused.judge_families(c, p, l, r), "28: equal fractions refused"),
    (|c, p, l, r| ParentInTheChild.judge_families(c, p, l, r), "28: child and parent exchanged"),
    (|c, p, l, r| ParentNamed.judge_families(c, p, l, r), "28: the parent named"),
    (|c, p, l, r| TopOfTheFamily.judge_families(c, p, l, r), "28: held to the topmost"),
    (|c, p, l, r| FractionsBeforeVolumes.judge_families(c, p, l, r), "28 before 21"),
    (|c, p, l, r| FractionsAfterBalance.judge_families(c, p, l, r), "28 after 22"),
    (|c, p, l, r| FractionsNotAsked.judge_families(c, p, l, r), "28 not asked"),
    (|c, p, l, r| WideAfterList.judge_families(c, p, l, r), "15 after 18"),
    (|c, p, l, r| crate::judgement::WideNotAsked.judge_families(c, p, l, r), "15 not asked with a list"),
];

pub struct EmptyIsNoFamilies;
impl Judgement for EmptyIsNoFamilies {
    fn judge_families(&self, case: &[u8], proposal: &[u8], list: &[u8], report: &mut [u8]) -> Verdict {
        self.judge_hour(case, proposal, Some(list).filter(|list| !list.is_empty()), report)
    }
}

/// Whether mark, version and length are those of a list for this many orders.
fn asked_of(list: &[u8], orders: usize) -> [bool; 3] {
    let version = list.len() >= LIST_HEADER && u16_at(list, 3) == 1;
    [list.starts_with(b"LTF"), version, list.len() == LIST_HEADER + 2 * orders]
}

pub struct MarkNotAsked;
impl Judgement for MarkNotAsked {
    fn family_list_is_wrong(&self, hour: &Hour) -> Option<usize> {
        let [_, version, length] = asked_of(hour.list?, hour.case.orders);
        holds(!version || !length)
    }
}

pub struct VersionNotAsked;
impl Judgement for VersionNotAsked {
    fn family_list_is_wrong(&self, hour: &Hour) -> Option<usize> {
        let [mark, _, length] = asked_of(hour.list?, hour.case.orders);
        holds(!mark || !length)
    }
}

pub struct LongerTaken;
impl Judgement for LongerTaken {
    fn family_list_is_wrong(&self, hour: &Hour) -> Option<usize> {
        let list = hour.list?;
        let [mark, version, _] = asked_of(list, hour.case.orders);
        holds(!mark || !version || list.len() < LIST_HEADER + 2 * hour.case.orders)
    }
}

pub struct ListBeforeProposal;
impl Judgement for ListBeforeProposal {
    fn table(&self) -> Table<Self> {
        let mut table = verdict_table::<Self>();
        let place = |number| table.iter().position(|row| row.0 == number).expect("in the table");
        let (proposal, list) = (place(9), place(18));
        table[proposal..=list].rotate_right(3);
        table
    }
}

pub struct ParentAtTheCount;
impl Judgement for ParentAtTheCount {
    fn parent_does_not_exist(&self, hour: &Hour) -> Option<usize> {
        let parents = self.parents(hour)?;
        let unknown = |parent: usize| parent > hour.case.orders;
        (0..hour.case.orders).find(|&order| parents.named(order).is_some_and(unknown))
    }
}

pub struct StraysTaken;
impl Judgement for StraysTaken {
    fn parent_does_not_exist(&self, _hour: &Hour) -> Option<usize> {
        None
    }
}

pub struct CirclesFirst;
impl Judgement for CirclesFirst {
    fn table(&self) -> Table<Self> {
        asked_before(18, 17)
    }
}

/// Orders on a circle that this build names.
fn on_circle(hour: &Hour, such: impl Fn(&Parents, usize) -> bool) -> Option<usize> {
    let parents = Papers.parents(hour)?;
    (0..hour.case.orders).find(|&order| parents.leads_back(order) && such(&parents, order))
}

pub struct IntoCircleRefused;
impl Judgement for IntoCircleRefused {
    fn order_leads_back(&self, hour: &Hour) -> Option<usize> {
        // A walk that does not end within this many steps goes around.
        let parents = self.parents(hour)?;
        let orders = hour.case.orders;
        (0..orders).find(|&order| parents.ancestors(order).take(orders).count() == orders)
    }
}

pub struct SelfParentTaken;
impl Judgement for SelfParentTaken {
    fn order_leads_back(&self, hour: &Hour) -> Option<usize> {
        on_circle(hour, |parents, order| parents.parent(order) != Some(order))
    }
}

pub struct CirclesOfTwoTaken;
impl Judgement for CirclesOfTwoTaken {
    fn order_leads_back(&self, hour: &Hour) -> Option<usize> {
        on_circle(hour, |parents, order| {
            parents.parent(order) == Some(order) || parents.ancestors(order).nth(1) != Some(order)
        })
    }
}

pub struct LastOnACircle;
impl Judgement for LastOnACircle {
    fn order_leads_back(&self, hour: &Hour) -> Option<usize> {
        let parents = self.parents(hour)?;
        (0..hour.case.orders).rfind(|&order| parents.leads_back(order))
    }
}

pub struct CirclesNotAsked;
impl Judgement for CirclesNotAsked {
    fn order_leads_back(&self, _hour: &Hour) -> Option<usize> {
        None
    }
}

pub struct WithoutQuantities;
impl Judgement for WithoutQuantities {
    fn fraction_exceeds(&self, hour: &Hour, one: usize, other: usize) -> bool {
        hour.proposal.volume(one) > hour.proposal.volume(other)
    }
}

pub struct EqualFractionsRefused;
impl Judgement for EqualFractionsRefused {
    fn fraction_exceeds(&self, hour: &Hour, one: usize, other: usize) -> bool {
        !Papers.fraction_exceeds(hour, other, one)
    }
}

pub struct ParentInTheChild;
impl Judgement for ParentInTheChild {
    fn fraction_exceeds(&self, hour: &Hour, one: usize, other: usize) -> bool {
        Papers.fraction_exceeds(hour, other, one)
    }
}

pub struct ParentNamed;
impl Judgement for ParentNamed {
    fn child_is_ahead(&self, hour: &Hour) -> Option<usize> {
        self.parents(hour)?.parent(Papers.child_is_ahead(hour)?)
    }
}

/// A child is compared with the top of its family.
pub struct TopOfTheFamily;
impl Judgement for TopOfTheFamily {
    fn child_is_ahead(&self, hour: &Hour) -> Option<usize> {
        let parents = self.parents(hour)?;
        let top = |child| parents.ancestors(child).take(hour.case.orders).last();
        (0..hour.case.orders).find(|&child| top(child).is_some_and(|top| self.fraction_exceeds(hour, child, top)))
    }
}

pub struct FractionsBeforeVolumes;
impl Judgement for FractionsBeforeVolumes {
    fn table(&self) -> Table<Self> {
        asked_before(28, 21)
    }
}

pub struct FractionsAfterBalance;
impl Judgement for FractionsAfterBalance {
    fn table(&self) -> Table<Self> {
        asked_after(28, 22)
    }
}

pub struct FractionsNotAsked;
impl Judgement for FractionsNotAsked {
    fn child_is_ahead(&self, _hour: &Hour) -> Option<usize> {
        None
    }
}

pub struct WideAfterList;
impl Judgement for WideAfterList {
    fn table(&self) -> Table<Self> {
        asked_after(15, 18)
    }
}
