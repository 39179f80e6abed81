"""What the sources have by name, since no clause and no run shows it: uses of the kit's crates, no
threads, how screen and belief are stored, and how a paint looks for its cells, parameters of the
public jobs, what each crate uses, the stored run, and the classic mistakes.

Each case reads files of the repository, and names the file and line. A search for a call passes
over comments. A function, a type or a definition is looked for by its name in its file, so one that
is renamed or moved is renamed here, too.
"""
import dataclasses
import functools
import re
from collections import defaultdict
from collections.abc import Iterable, Iterator

from harness.case import CASES, TOP, BadCase, Case, Checks, Difference, Place, same
from harness.documents import printed, read
from suites import wrong_bodies

check = Checks()

CRATES = "crates.txt"

# ---- reading the sources


@dataclasses.dataclass(frozen=True)
class Part:
    """A part of a file, without comments and with single blanks, and the line that it begins at."""

    at: Place
    text: str

    def has(self, wanted: str) -> None:
        """Raises a Difference if the part doesn't have this text."""
        if wanted not in self.text:
            raise Difference(wanted, self.text, self.at)

    def says(self, wanted: str) -> None:
        """Raises a Difference if the part isn't this text."""
        same(wanted, self.text, self.at)


def code_of(text: str, comment: str = "//") -> str:
    """A text whose comments are blanks."""
    return re.sub(rf"(^|\s){comment}.*", r"\1", text, flags=re.MULTILINE)


def spaced(text: str) -> str:
    """A text with single blanks."""
    return " ".join(text.split())


def part(file: str, pattern: str, what: str, comment: str = "//") -> Part:
    """The last group of the first place in a file that has a pattern."""
    code = code_of(read(file), comment)
    found = re.search(pattern, code, re.MULTILINE | re.DOTALL)
    if not found:
        raise Difference(what, f"{file} doesn't have it", Place(file, 1))
    last = found.re.groups
    return Part(Place(file, 1 + code.count("\n", 0, found.start(last))), spaced(found[last]))


def struct(file: str, name: str) -> Part:
    """The fields of a struct."""
    return part(file, rf"^(?:pub(?:\(\w+\))? )?struct {name}\b[^{{]*\{{(.*?)^\}}", f"struct {name}")


def derives(file: str, name: str) -> Part:
    """The derives of a type."""
    return part(
        file, rf"^#\[derive\(([^)]*)\)\]\n(?:#\[.*\]\n)*(?:pub )?(?:enum|struct) {name}\b", name
    )


def ghost(file: str, name: str, item: str) -> Part:
    """What a type says for an item of the trait `Model`."""
    return part(
        file,
        rf"^impl (?:\w+::)*Model for {name}\b.*?^    ghost {item} = \{{(.*?)\}};\n",
        f"ghost {item} of {name}",
    )


def definition(file: str, name: str) -> Part:
    """The equations of a definition."""
    return part(
        file, rf"^abbrev pub {name} :.*?\n({name} .*?)(?:\n\n|\Z)", f"definition {name}", "--"
    )


def function(file: str, name: str, owner: str = "") -> Part:
    """The body of a function; of a type, if that is named."""
    inside = rf"^impl\b[^\n]* {owner}\b[^\n]*\{{\n(?:(?!^\}})[^\n]*\n)*?" if owner else ""
    return part(
        file,
        rf"{inside}^( *)(?:pub(?:\(\w+\))? )?fn {name}\b(?:[^\n]* |(?:(?!\n\1\}}).)*?\n\1)\{{\n"
        r"(.*?)^\1\}",
        f"fn {owner}::{name}" if owner else f"fn {name}",
    )


def head(file: str, name: str) -> Part:
    """The type parameters, the parameters' types and the result of a public function, without
    lifetimes."""
    found = part(file, rf"^pub fn {name}\b(.*?\) -> [^\n{{]*)", f"pub fn {name}")
    text = re.sub(r"<'\w+>|'\w+,? ?", "", found.text).replace("( ", "(").replace(", )", ")")
    return Part(found.at, re.sub(r"\w+: (?!Source|Sink)", "", text))


def sources(crate: str) -> Iterator[str]:
    """The files of a crate."""
    for path in sorted((TOP / "crates" / crate / "src").rglob("*.rt")):
        yield str(path.relative_to(TOP))


def places(crate: str, pattern: str) -> Iterator[Part]:
    """Each line of a crate's code that has a pattern."""
    for file in sources(crate):
        for number, line in enumerate(code_of(read(file)).splitlines(), 1):
            if re.search(pattern, line):
                yield Part(Place(file, number), spaced(line))


def has(crate: str, pattern: str, what: str) -> None:
    """Raises a Difference if no line of a crate's code has a pattern."""
    if not any(places(crate, pattern)):
        at = Place(next(sources(crate)), 1)
        raise Difference(what, f"no line of crates/{crate}/src has it", at)


def has_none(crates: Iterable[str], pattern: str, what: str) -> None:
    """Raises a Difference if a line of the crates' code has a pattern."""
    for crate in crates:
        for line in places(crate, pattern):
            raise Difference(what, line.text, line.at)


@functools.cache
def uses() -> dict[str, list[str]]:
    """What each crate uses."""
    return wrong_bodies.uses()


def line_of(crate: str) -> Place:
    """The line of crates.txt that says what a crate uses."""
    lines = read(CRATES).splitlines()
    return Place(
        CRATES,
        next((n for n, it in enumerate(lines, 1) if re.match(rf"{crate}\b.*:", it)), 1),
    )


# ---- crates of the kit

# A crate of the kit, a crate that uses it, and a line that shows for what.
KIT = [
    ("toml", "panels", r"\btoml::table_from_str\(", "reads a panel text by toml::table_from_str"),
    ("clap", "cli", r"\.try_get_matches_from\(words\)", "reads words by try_get_matches_from"),
    ("mio", "server", r"\.poll\(&mut self\.events\b", "asks mio which sockets are ready"),
    ("mio", "operate", r"\.poll\(&mut self\.events\b", "asks mio which sockets are ready"),
    ("mio", "web", r"\.poll\(&mut self\.events\b", "asks mio which sockets are ready"),
]
# The faults that `thiserror` derives.
FAULTS = [
    ("jobs", "fault", "Fault"),
    ("jobs", "file_fault", "FileFault"),
    ("jobs", "live_fault", "LiveFault"),
    ("cli", "refusal", "WordFault"),
]


def lists(crate: str, kit: str) -> None:
    """Raises a Difference if a crate's line of crates.txt doesn't have a crate of the kit."""
    used = uses().get(crate, [])
    if kit not in used:
        raise Difference(f"{crate} with {kit}", " ".join(used), line_of(crate))


def check_kit(kit: str, crate: str, pattern: str, what: str) -> None:
    lists(crate, kit)
    has(crate, pattern, what)


def check_fault(crate: str, module: str, fault: str) -> None:
    file = f"crates/{crate}/src/{module}.rt"
    lists(crate, "thiserror")
    part(file, r"^(use thiserror::Error;)$", "use thiserror::Error;")
    derived = derives(file, fault)
    if "Error" not in derived.text.split(", "):
        raise Difference("Error among the derives", derived.text, derived.at)


@check
def each_crate_of_the_kit_is_used_where_it_is_listed() -> None:
    """Those of the table of uses, by each crate whose line of crates.txt has them."""
    for kit in sorted({it[0] for it in KIT} | {"thiserror"}):
        for crate, used in uses().items():
            if kit in used:
                has(crate, rf"\b{kit}::", f"{crate} uses {kit}, as {CRATES} says")


# ---- handles


@check
def the_file_handles_is_one_line() -> None:
    same("Handles allowed: Threads, Wait, Net.\n", read("HANDLES"), Place("HANDLES", 1))


# Crates of the kit that start threads, or are for programs with threads.
THREADED = {"rayon", "tokio", "hyper", "futures", "left_right", "rtrb", "boxcar"}


@check
def no_crate_starts_a_thread() -> None:
    """Neither by std nor by a crate of the kit."""
    for crate, used in uses().items():
        threaded = [it for it in used if it in THREADED or it.startswith("crossbeam_")]
        same([], threaded, line_of(crate))
    has_none(uses(), r"\bthread::|\bthread\b.*;$|\bThreads\b|\bspawn\w*\(", "no thread is started")


@check
def no_function_runs_without_end() -> None:
    """None waits or repeats without an end, and crates.txt counts none that may."""
    for number, line in enumerate(read(CRATES).splitlines(), 1):
        if re.search(r"\b(may_wait|tests_may)\b", line):
            raise Difference("a line without may_wait or tests_may", line, Place(CRATES, number))
    has_none(
        uses(), r"\bforever\(|\bimpl Wait\b|\bsync::.*\bWait\b", "no function that may not return"
    )


# ---- how a screen is stored

SCREEN, INDEX, FIELDS = (f"crates/presentation/src/{it}.rt" for it in ("screen", "index", "fields"))


@check
def a_screen_has_its_attributes_addresses_in_a_fixed_array_with_a_count() -> None:
    struct(SCREEN, "Screen").has("attributes: AttributeIndex,")
    struct(INDEX, "AttributeIndex").has("places: [u16; MOST_CELLS], count: usize,")
    ghost(INDEX, "AttributeIndex", "view").says("λ index. take index.count index.places")


@check
def a_screens_invariant_says_that_the_counted_part_has_the_attributes_addresses() -> None:
    """In ascending order: those of the cells that hold no character, from the first cell on."""
    ghost(SCREEN, "Screen", "invariant").says(
        "λ s. s.attributes ≡ attribute_places s.buffer.screen.cells 0"
    )
    definition("crates/presentation/specs/Places.antt", "attribute_places").says(
        "attribute_places cells from = places_from (λ cell. not (is_char cell)) from "
        "(drop from cells)"
    )
    definition("crates/datastream/specs/Screen.antt", "places_from").says(
        "places_from passes at [] = [] places_from passes at (cell ∷ cells) = if passes cell then "
        "at ∷ places_from passes (at + 1) cells else places_from passes (at + 1) cells"
    )


@check
def fields_walks_the_addresses() -> None:
    function(FIELDS, "fields", "Screen").has("Fields { screen: self, next: 0, }")
    following = function(FIELDS, "next", "Fields")
    following.has("screen.field_number(self.next)")
    following.has("self.next += 1;")
    function(FIELDS, "field_number").has("self.field_place(number)")
    function(FIELDS, "field_place").has("self.places()[number]")
    function(FIELDS, "places").has("self.attributes.places()")
    function(INDEX, "places").has("&self.places[..self.count]")


@check
def field_at_does_a_binary_search() -> None:
    """For the field's address among those of the attributes."""
    function(FIELDS, "field_at").has("self.field_number_at(at)")
    function(FIELDS, "field_number_at").has("nearest_before(self.places(), at, self.size())")
    function(INDEX, "nearest_before").has("count_up_to(places, at.get(), size.cells())")
    function(INDEX, "count_up_to").has("places.binary_search(&at)")
    has_none(["presentation"], r"\bfn binary_search\b", "the binary search of std's slices")


# ---- how a belief is stored, and a paint found

SHADOW, BELIEFS, SEARCH, PAINTING = (
    f"crates/shadow/src/{it}.rt" for it in ("shadow", "cell_beliefs", "searching", "painting")
)
BITS = "crates/datastream/src/cell_store/cell_bits.rt"


@check
def known_cells_are_rows_of_64_bits() -> None:
    struct(SHADOW, "Shadow").has("beliefs: CellBeliefs,")
    struct(BELIEFS, "CellBeliefs").has("known: CellBits,")
    struct(BITS, "CellBits").says("words: [u64; WORDS],")
    part(BITS, r"^(const WORDS: [^;]*;)", "const WORDS").says(
        "const WORDS: usize = (MOST_CELLS + BITS - 1) / BITS;"
    )
    for file in (BITS, SEARCH):
        part(file, r"^((?:pub\(crate\) )?const BITS: [^;]*;)", "const BITS").has("usize = 64;")
    definition("crates/datastream/specs/CellBits.antt", "has_bit").says(
        "has_bit words cell = nat_eq (bit_at (slice_index_or words (cell / 64) 0) (cell % 64)) 1"
    )


@check
def a_beliefs_invariant_says_which_bits_are_set() -> None:
    """A cell's bit is set exactly if the cell is an attribute or a known character."""
    ghost(BELIEFS, "CellBeliefs", "invariant").has(
        "× MarksKnown beliefs.known (kept (place_by beliefs.heads beliefs.cells.attributes "
        "beliefs.known beliefs.told) 0 beliefs.cells.codes)"
    )
    packed = "crates/shadow/specs/PackedBeliefs.antt"
    definition(packed, "MarksKnown").says(
        "MarksKnown known beliefs = (cell : ℕ) → cell < length beliefs "
        "→ has_bit known cell ≡ is_known (slice_index_or beliefs cell Unknown)"
    )
    definition(packed, "is_known").says(
        "is_known (Attr attribute mdt knowledge) = true is_known (Known char) = true "
        "is_known (Unplaced char) = false is_known Unknown = false"
    )


@check
def a_paint_finds_its_runs_by_whole_words() -> None:
    """It takes the bits of 64 cells at once, and counts the clear ones in front of the next."""
    function(SHADOW, "paint", "Shadow").has("self.put_paint(&mut writer, wanted)")
    function(SHADOW, "put_paint", "Shadow").has("put_cells(writer, wanted, &base, wanted.cursor())")
    function(PAINTING, "put_cells").has("search.next_to_store(wanted, base)")
    stored = function(SEARCH, "next_to_store", "Search")
    stored.has("self.next_look(cells)")
    stored.has("self.at(wanted, base, place + 1)")
    function(SEARCH, "next_look", "Search").has("clear_bits(self.look, self.from % BITS)")
    function(SEARCH, "clear_bits").has("left.trailing_zeros()")
    function(SEARCH, "at", "Search").has("word_to_look(wanted, base, word)")
    function(SEARCH, "word_to_look").says(
        "let _size = wanted.size(); let unlike = base.unlike(wanted.bytes(), word); "
        "wanted.attribute_word(word) | wanted.character_word(word) & unlike"
    )
    function(PAINTING, "unlike", "Base").has("self.beliefs.unlike(bytes, word)")
    function(BELIEFS, "unlike", "CellBeliefs").has("!self.known.word(word)")
    struct(SEARCH, "Search").says("from: usize, look: u64,")


# ---- the public jobs

STREAMS = "&mut I, &mut O, &mut E) -> u8"
PARAMETERS = "<I: Source, O: Sink, E: Sink>"


@check
def run_show_and_run_script_have_the_agreed_parameters() -> None:
    """Of an allocator, for `run_show` a model, an input, an output, and an output of faults; each
    answers an exit status."""
    jobs = "crates/scripts/src/page_job.rt"
    head(jobs, "run_show").says(f"{PARAMETERS}(Global, Model, {STREAMS}")
    head(jobs, "run_script").says(f"{PARAMETERS}(Global, {STREAMS}")


@check
def words_has_the_agreed_parameters() -> None:
    head("crates/cli/src/command_line.rt", "words").says(
        "(Global, &[String]) -> Result<Job, WordFault>"
    )


# ---- the workspace

# What each crate uses. It may use what these use, too; the program has further crates of its own.
STANDS_ON = {
    "codes3270": [],
    "telnet_wire": [],
    "tn3270e_msg": ["telnet_wire", "codes3270"],
    "datastream": ["codes3270"],
    "presentation": ["datastream"],
    "keyboard": ["presentation"],
    "shadow": ["datastream"],
    "panels": ["datastream"],
    "lu_pool": ["tn3270e_msg"],
    "host_core": ["shadow", "panels", "lu_pool"],
    "term_core": ["keyboard", "tn3270e_msg"],
    "world3270": ["host_core", "term_core"],
    "panel3270": ["world3270"],
}
PROGRAM = "panel3270"


def below(crate: str) -> set[str]:
    """The crates that a crate may use by the table."""
    own = STANDS_ON[crate]
    return set(own).union(*map(below, own))


def check_crate(crate: str) -> None:
    if crate not in uses():
        raise Difference(f"a line `{crate}: ..`", "none", Place(CRATES, 1))
    at, used = line_of(crate), set(uses()[crate]) & set(uses())
    root = TOP / "crates" / crate / "src" / ("main.rt" if crate == PROGRAM else "lib.rt")
    if not root.is_file():
        raise Difference(root.relative_to(TOP), "no such file", at)
    if lacking := set(STANDS_ON[crate]) - used:
        raise Difference(f"{crate} with {' '.join(sorted(lacking))}", " ".join(sorted(used)), at)
    if crate != PROGRAM and (further := used - below(crate)):
        raise Difference(f"{crate} without {' '.join(sorted(further))}", " ".join(sorted(used)), at)


# ---- the stored run

RUN = CASES / "worked-run"


def stored(name: str) -> bytes:
    """A file of the program's stored run; nothing if there is none."""
    path = TOP / "crates" / PROGRAM / name
    return path.read_bytes() if path.is_file() else b""


def same_lines(wanted: str, name: str) -> None:
    """Raises a Difference at the first line of a stored file that differs."""
    file, came = f"crates/{PROGRAM}/{name}", stored(name).decode(errors="replace")
    if wanted == came:
        return
    lines = list(zip(wanted.split("\n"), came.split("\n")))
    number = next((n for n, (one, other) in enumerate(lines) if one != other), len(lines) - 1)
    raise Difference(repr(lines[number][0]), repr(lines[number][1]), Place(file, number + 1))


@check
def the_stored_run_is_the_worked_one() -> None:
    """The panel text, the line `%%` and the script of tests/cases/worked-run, and its screens."""
    panels, script, screens = (
        (RUN / it).read_text(encoding="utf-8")
        for it in ("panels.toml", "script.txt", "screens.txt")
    )
    same_lines(f"{panels}%%\n{script}", "stdin")
    same_lines(printed(screens.splitlines())[0], "stdout")
    # Without words the program does `script`.
    same(b"", stored("args"), Place(f"crates/{PROGRAM}/args", 1))


@check
def the_readme_runs_the_stored_run() -> None:
    command = "    (cd crates/panel3270 && rt run < stdin)"
    if command not in read("README.md").splitlines():
        raise Difference(command, "no such line", Place("README.md", 1))


# ---- the classic mistakes

TESTING, SECTION = "docs/TESTING.md", "## The classic mistakes\n"


def classic_by_page() -> dict[str, list[tuple[str, Place]]]:
    """The mistakes that each crate's page of wrong bodies marks as classic ones."""
    found = defaultdict(list)
    for crate in uses():
        if (TOP / "crates" / crate / wrong_bodies.PAGE).exists():
            for mistake in wrong_bodies.page_of(crate).mistakes:
                if mistake.is_classic:
                    found[crate].append((mistake.title, mistake.at))
    return found


def classic_by_list() -> dict[str, list[tuple[str, Place]]]:
    """Those of the list in docs/TESTING.md."""
    text = read(TESTING)
    start = text.index(SECTION) + len(SECTION)
    section = text[start:].partition("\n## ")[0]
    found = {}
    for entry in re.finditer(r"^- \*(\w+):\* (.*(?:\n  .*)*)", section, re.MULTILINE):
        at = Place(TESTING, 1 + text.count("\n", 0, start + entry.start()))
        found[entry[1]] = [(it, at) for it in spaced(entry[2]).split("; ")]
    if not found:
        raise BadCase("no entry `- *CRATE:* NAME; NAME`", Place(TESTING, 1))
    return found


def check_classic(crate: str) -> None:
    """Those that the page marks are those of the list."""
    marked, listed = (dict(it.get(crate, [])) for it in (classic_by_page(), classic_by_list()))
    for title, at in listed.items():
        if title not in marked:
            raise Difference(f"{crate}: `## {title}`, marked as a classic mistake", "not there", at)
    for title, at in marked.items():
        if title not in listed:
            raise Difference(f"{title}, in the list of {TESTING}", "not there", at)


def cases() -> Iterator[Case]:
    for kit, crate, pattern, what in KIT:
        run = functools.partial(check_kit, kit, crate, pattern, what)
        yield Case(f"{crate} {what}", line_of(crate), run)
    for crate, module, fault in FAULTS:
        yield Case(
            f"thiserror derives {fault} of {crate}",
            Place(f"crates/{crate}/src/{module}.rt", 1),
            functools.partial(check_fault, crate, module, fault),
        )
    for crate in STANDS_ON:
        yield Case(f"what {crate} uses", line_of(crate), functools.partial(check_crate, crate))
    for crate in sorted(set(classic_by_page()) | set(classic_by_list())):
        yield Case(
            f"the classic mistakes of {crate}",
            Place(f"crates/{crate}/{wrong_bodies.PAGE}", 1),
            functools.partial(check_classic, crate),
        )
    yield from check.cases()
