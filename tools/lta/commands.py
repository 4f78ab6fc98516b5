"""The commands of lta, in one table. The parser, the help, the manual page and bash's completion are made of it.

To add an option, add an Option to its command; the parser then sets `options.NAME`, NAME being the flag's word. To add
a command, add a Command here and the function that runs it to `RUN` in cli.py.
"""

from __future__ import annotations

from dataclasses import dataclass


@dataclass(frozen=True)
class Option:
    """An option of a command.

    flag    as it is typed: --json, -o
    words   what it does, one sentence for the help and the manual page
    value   what its value is called, in capitals; empty for a switch
    name    the attribute that it sets, by default the flag's word
    sets    what a switch sets it to; switches of one command that set the same attribute exclude each other
    apart   options of one command with the same word here exclude each other
    many    the option may be repeated, and its values are a list
    choices the values that are allowed; empty for any
    """

    flag: str
    words: str
    value: str = ""
    name: str = ""
    sets: object = True
    apart: str = ""
    many: bool = False
    choices: tuple[str, ...] = ()

    @property
    def dest(self) -> str:
        return self.name or self.flag.lstrip("-").replace("-", "_")

    @property
    def shown(self) -> str:
        """As the usage line has it."""
        return f"{self.flag} {self.value}" if self.value else self.flag


@dataclass(frozen=True, eq=False)
class Command:
    """A command.

    name         as it is typed
    summary      one line for the overview, in the imperative
    operands     what follows it, as the usage line shows it; a [ in front says that it may be left out
    description  paragraphs for its help; a line break is only a blank
    options      in the order of the help
    examples     command lines
    statuses     what each exit status says
    most         how many operands it takes; None for any number
    """

    name: str
    summary: str
    operands: str
    description: tuple[str, ...]
    options: tuple[Option, ...]
    examples: tuple[str, ...]
    statuses: dict[int, str]
    most: int | None = None

    @property
    def needs_operands(self) -> bool:
        return bool(self.operands) and not self.operands.startswith("[")

    @property
    def takes_hours(self) -> bool:
        """Whether its operands are hours, which FILES describes."""
        return "FILE..." in self.operands


# What a FILE of those commands is that take hours: how it is written, and what it stands for.
FILES = (
    ("X.case", "a case. Its proposal is X.proposal, or else the proposal that X.dump gives"),
    ("X.bin, X.joined, -", "a case with its proposal directly after it, cut as desk cuts them; - is standard input"),
    ("X.txt", "the text of an hour or of a dump, as lta help text explains it"),
    ("X.families", "the family list of X.case, X.bin or X.joined"),
    ("a folder", "all of these in it and in its folders"),
)
FILES_NOTES = (
    """The ending of a file, in capitals or not, says what it is. For other endings an option says what the files are.
    For X.case, lta takes the X.proposal, X.dump and X.families that you name; else a file of another name that follows
    X.case and has such an ending; else the file of its own name that lies next to it.""",
    """In a folder, lta skips hidden files and follows no links to folders. One line on standard error names the files
    that belong to no hour. An hour that cannot be read does not stop the others.""",
)

# What lta is, and what its answers rest on, for the overview and the manual page.
PURPOSE = "judge, explain, show, build and draw hours of the day-ahead coupling"
PROVED = """Verdicts, totals, prices, shortfalls, yes or no, proposals and columned files come from the proved library.
    Explanations, zones that are cut off, what is left of a gap, and pages are computed by lta itself. They are not
    proved, and say so."""
STATUSES = {
    0: "every hour is accepted, or as its text expects; other commands: it is answered or written",
    1: "an hour is refused, or not as its text expects; other commands: the library refuses what it was given",
    2: "something could not be read, judged or written; a line on standard error says what",
}
ENVIRONMENT = {
    "LTA_ARCHIVE_DIR": """the folder of another library, liblta_judgement.so or, in the repository, libhost.a. It is
    loaded in place of the command's own. A line on standard error, a field of every answer for machines, and every page
    then say that it does not belong to this command""",
}
READ_FAILED = STATUSES[2]

# Options that several commands share.
PAIRS = Option("--pairs", "take the files in pairs, a case and then its proposal", name="way", sets="pairs")
JOINED = Option("--joined", "take all files as joined files", name="way", sets="joined")
TEXT = Option("--text", "take all files as texts", name="way", sets="text")
FAMILIES = Option(
    "--families", "judge the one hour named with this family list", value="FILE", name="family_list", apart="lists"
)
NO_FAMILIES = Option(
    "--no-families", "judge without family lists; a line on standard error names the hours that have one", apart="lists"
)
IGNORE = Option(
    "--ignore",
    "in a folder, skip files and folders of this name, or of this path if it has a /; may be repeated",
    value="GLOB",
    many=True,
)
HOURS = (JOINED, TEXT, FAMILIES, NO_FAMILIES, IGNORE)
CSV = Option("--csv", "print CSV, for machines", name="form", sets="csv")
JSON = Option("--json", "print JSON, for machines", name="form", sets="json")
JSONL = Option("--jsonl", "print JSON Lines, for machines: a line for each record", name="form", sets="jsonl")
FORCE = Option("--force", "overwrite a file that exists")
QUIET = Option("--quiet", "print nothing but what another option asks for; messages stay")
# What a command that prints text shares: where the text goes.
ANSWER = (
    Option("-o", "write the answer to this file, whole or not at all", value="FILE", name="answer"),
    FORCE,
    QUIET,
)


def output(value: str, words: str) -> Option:
    return Option("-o", words, value=value, name="out")


# The options that name a file to be read, by the attribute that they set.
INPUT_OPTIONS = ("pairs", "family_list")
# The files that build writes, by the name of their option.
BUILT = ("case", "proposal", "joined", "families", "dump")

COMMANDS = (
    Command(
        "judge",
        "judge hours and print a table of verdicts and totals",
        "[FILE...]",
        (
            """Judges every hour that the files name and prints a table: file, verdict, index, and welfare, gap, rent
            and owed in euros. Without a FILE it reads a joined hour from standard input.""",
            """It compares the verdict of a text with the text's expect lines.""",
            """--csv, --json and --jsonl have every decimal, the explanation in a sentence, the version, the library's
            SHA-256 and that of each file read; docs/SCHEMA.md describes their fields.""",
        ),
        (
            CSV,
            JSON,
            JSONL,
            Option("--junit", "write the results as JUnit XML to this file too", value="FILE"),
            Option("--refused", "show only hours that are refused or could not be read; all are counted"),
            Option("--strict", "end with status 0 only if every hour is accepted, whatever its text expects"),
            PAIRS,
            *HOURS,
            *ANSWER,
        ),
        (
            "lta judge three-zone.case three-zone.proposal",
            "lta judge --refused day/",
            "lta judge --json day/ -o day.json",
            "lta judge --quiet --junit day.xml day/",
        ),
        {
            0: "every hour is accepted, or as its text expects",
            1: "an hour is refused, or not as its text expects; with --strict, an hour is refused",
            2: READ_FAILED,
        },
    ),
    Command(
        "explain",
        "say in words why an hour is accepted or refused",
        "FILE...",
        (
            """Says the verdict in words: the field, its offset in decimal and hex, its value and its limit. The line
            under a refusal lists what else is wrong, and the numbers that cannot be decided until these are mended. If
            the files are in order it also prints the zones, branches, links and families, and the parts of the gap.""",
        ),
        (PAIRS, *HOURS, *ANSWER),
        ("lta explain three-zone.case three-zone.proposal", "lta explain three-zone.txt"),
        {0: "the hour is accepted", 1: "the hour is refused", 2: READ_FAILED},
    ),
    Command(
        "shortfalls",
        "list how far each order, branch and link falls short of its best",
        "FILE...",
        (
            """Says by how much each order, branch and link of an accepted hour falls short of its best at the zone
            prices, largest first, to a hundred-thousandth of a microcent, and what is left of the gap.""",
            """--csv, --json and --jsonl have all of them, in file order: the library's two numbers, whole microcents
            and hundred-thousandths, and euros.""",
        ),
        (CSV, JSON, JSONL, PAIRS, *HOURS, *ANSWER),
        ("lta shortfalls three-zone.txt",),
        {0: "answered", 1: "the library refuses the hour, and a line says why", 2: READ_FAILED},
    ),
    Command(
        "intuitive",
        "say whether all exports can go from a lower or equal price to a higher one",
        "FILE...",
        (
            """Says whether the exports of an accepted hour can all be carried to imports, each from a zone to one whose
            price is not lower, by annex 5.1 of Annex 16.18: yes or no, how much can be carried, and for a no which
            zones are cut off.""",
            """Flow goes along pairs of zones: the case's links, or the pairs of a text. Such a text has two zones to a
            line, as in 0 1, and # before a comment.""",
        ),
        (
            Option("--links", "take the case's links as the pairs of zones; this is the default", apart="pairs"),
            Option("--pairs", "take the pairs of zones of this text", value="TEXT", apart="pairs"),
            JSON,
            JSONL,
            *HOURS,
            *ANSWER,
        ),
        ("lta intuitive five-zone-first.txt", "lta intuitive five-zone-first.txt --pairs pairs.txt"),
        {0: "yes", 1: "no, or the library refuses the hour or a pair, and a line says why", 2: READ_FAILED},
    ),
    Command(
        "dump",
        "turn a solver's dump into a proposal",
        "CASE DUMP | FOLDER",
        (
            """Writes the proposal that a solver's dump gives for a case. Without -o it prints how long the proposal
            would be. The text of a dump stands for both files.""",
            """If you name several files or a folder, it takes every X.case with its X.dump, and every text. -o then
            names the folder in which it writes each X.proposal.""",
        ),
        (
            output(
                "PROPOSAL", "write the proposal to this file, or the proposals to this folder; - is standard output"
            ),
            FORCE,
            QUIET,
            Option("--pairs", "take the files in pairs, a case and then its dump", name="way", sets="pairs"),
            TEXT,
            IGNORE,
        ),
        ("lta dump three-zone.case three-zone.dump -o three-zone.proposal", "lta dump night/"),
        {0: "written", 1: "the library refuses the case or the dump, and a line says why", 2: READ_FAILED},
    ),
    Command(
        "column",
        "rearrange a case for the archive, its orders column by column",
        "CASE",
        (
            """Writes a case with its orders column by column, under the mark LTK. Such a file compresses better.
            Without -o it prints how long the file would be. A columned file that is given as a case is refused by
            2.""",
        ),
        (output("FILE", "write the columned file here; - is standard output"), FORCE, QUIET),
        ("lta column three-zone.case -o three-zone.columned",),
        {0: "written", 1: "the library refuses the case, and a line says why", 2: READ_FAILED},
    ),
    Command(
        "restore",
        "turn a columned file back into its case",
        "FILE",
        (
            """Writes the case from which a columned file was made, byte for byte. Without -o it prints how long the
            case would be.""",
        ),
        (output("CASE", "write the case to this file; - is standard output"), FORCE, QUIET),
        ("lta restore three-zone.columned -o three-zone.case",),
        {0: "written", 1: "the library refuses the file, and a line says why", 2: READ_FAILED},
    ),
    Command(
        "page",
        "draw hours as one page for a browser",
        "FILE...",
        (
            """Writes one page that a browser shows, for an hour or for all hours of a folder. Without -o the page is
            named after the hour or the folder. The page of a folder starts with the refused hours.""",
            """The same input gives the same page: it tells the time of judging only with --time.""",
        ),
        (
            output("PAGE", "write the page to this file; - is standard output"),
            FORCE,
            Option("--time", "write the time of judging, in UTC, at the foot of the page"),
            QUIET,
            PAIRS,
            *HOURS,
        ),
        ("lta page three-zone.case three-zone.proposal -o hour.html", "lta page day/ -o day.html"),
        {0: "written", 2: READ_FAILED},
    ),
    Command(
        "show",
        "print files as text, field by field, with their offsets",
        "CASE [PROPOSAL | DUMP] [FAMILIES]",
        (
            """Prints the files as text. lta build turns that text back into the same bytes, however broken they are. A
            joined file, or the text of an hour or of a dump, stands for all of them.""",
            """For a case and an X.dump it prints what each value of the dump becomes.""",
        ),
        (Option("--joined", "take the file as a joined file", name="way", sets="joined"), *ANSWER),
        ("lta show three-zone.case three-zone.proposal", "lta show three-zone.case three-zone.dump"),
        {0: "printed", 2: READ_FAILED},
    ),
    Command(
        "field",
        "name the field that stands at an offset",
        "CASE [PROPOSAL] [FAMILIES] OFFSET",
        ("""Says which field of the last file named stands at OFFSET, a decimal number or hex digits after 0x.""",),
        (),
        ("lta field three-zone.case 47", "lta field three-zone.case three-zone.proposal 0x1c"),
        {0: "answered", 2: READ_FAILED},
    ),
    Command(
        "build",
        "write the files that a text describes",
        "TEXT",
        (
            """Writes the files that you ask for. If you ask for none, it prints their sizes. lta help text explains the
            lines of a text.""",
        ),
        (
            Option("--case", "write the case to this file; - is standard output", value="FILE"),
            Option("--proposal", "write the proposal", value="FILE"),
            Option("--joined", "write the case with its proposal directly after it", value="FILE"),
            Option("--families", "write the family list", value="FILE"),
            Option("--dump", "write the dump", value="FILE"),
            FORCE,
            QUIET,
        ),
        ("lta build three-zone.txt --case x.case --proposal x.proposal",),
        {0: "written", 2: READ_FAILED},
        most=1,
    ),
    Command(
        "diff",
        "compare two result files, or two libraries over the same hours",
        "A B | FILE...",
        (
            """Lists the hours whose error, verdict, index, totals or prices differ between two result files of lta
            judge, and those that only one of them has. A and B are JSON, JSON Lines or CSV; hours are matched by their
            names.""",
            """With --library twice it judges the hours of the files with two libraries, in two processes, and compares
            their results. DIR is a folder as for LTA_ARCHIVE_DIR.""",
        ),
        (
            Option("--library", "use the library in this folder; once for A, once for B", value="DIR", many=True),
            NO_FAMILIES,
            IGNORE,
            CSV,
            JSON,
            JSONL,
            *ANSWER,
        ),
        (
            "lta diff yesterday.json today.json",
            "lta diff --library old/lib --library new/lib day/",
        ),
        {0: "no difference", 1: "something differs", 2: READ_FAILED},
    ),
    Command(
        "help",
        "explain a command, or the text of an hour",
        "[COMMAND | text]",
        (
            """Prints an overview of the commands, the help of one command, or, for text, what the lines of an hour's
            text are.""",
        ),
        (),
        ("lta help judge", "lta help text"),
        {0: "printed", 2: READ_FAILED},
        most=1,
    ),
    Command(
        "version",
        "print which build answers",
        "",
        (
            """Prints the version, the SHA-256 of the library that is loaded, the kit that proved it, and the commit.
            lta --version does the same. In the repository the library is proved and built on first use, and after a
            change in crates/, which takes some minutes.""",
            f"""The environment variable LTA_ARCHIVE_DIR may name {ENVIRONMENT['LTA_ARCHIVE_DIR']}.""",
        ),
        (),
        ("lta --version",),
        {0: "printed", 2: READ_FAILED},
        most=0,
    ),
)
BY_NAME = {command.name: command for command in COMMANDS}
