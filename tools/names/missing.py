"""What the sources of a language lack: words at a name, and calls that the headers for C have."""

# Names whose declaration says all: what C++ and Go ask of a type, the values of an enum, fields,
# constants, and calls of no user.
PLAIN = {
    "C++": {
        "sharded::begun.block", "sharded::begun.parts", "sharded::options.format",
        "sharded::opened.writer", "sharded::opened.readers", "options.format", "digest", "pair",
        "difference.key", "difference.theirs", "refused.refused", "refused_edit.refused_edit",
        "refused_shard.refused_shard", "overtaken.overtaken", "tried.operator bool",
        "applied.operator bool", "migrated.operator bool", "counted.operator bool",
        "items.iterator.value_type", "items.iterator.difference_type", "items.iterator.pointer",
        "items.iterator.reference",
        # the bodies of calls whose words stand in their types
        "sharded::begin", "sharded::copy_to",
    },
    "Python": {
        "ABSENT", "BAD_SPLITS", "Difference.key", "Difference.ours", "Difference.theirs", "Edit",
        "Format.ONE", "Format.TWO", "Octets", "UNFIT", "main",
        "Bytes.take", "Bytes.number", "Bytes.is_at_end", "read_child", "read_counted",
    },
    "Go": {"Refused.Error"},
    "JavaScript": {"ProofTest", "FrameTest", "Test", "Claim"},
}

# Calls for C that a language has as other things: texts of refusals, lists of pairs, of edits and
# of splits. `mst_top_text` is for C alone.
OTHERWISE = {"mst_error_text", "mst_pair_at", "mst_edit_put", "mst_edit_remove", "mst_split",
             "mst_top_text"}

# Calls that have another name in a language; none if the end of a value's life makes them.
RENAMED = {
    "C++": {"mst_sharded_copy": "copy_to", "mst_sharded_group_open": "group"},
    "Rust": {
        "mst_close": None, "mst_unpin": None, "mst_sharded_close": None,
        "mst_sharded_release": None, "mst_sharded_copy": "copy_to",
        "mst_sharded_group_open": "into_group", "mst_sharded_group_close": "into_writer",
    },
    "Python": {
        "mst_open": "open_store", "mst_sharded_open": "open_sharded",
        "mst_sharded_copy": "copy_to", "mst_sharded_group_open": "group",
    },
    "Go": {
        "mst_sharded_open": "open_sharded", "mst_sharded_copy": "copy_to",
        "mst_sharded_group_open": "group",
    },
}
STORES = ("C++", "Rust", "Python", "Go")
VERIFIERS = ("Rust", "Python", "Go", "JavaScript")


def every(names, above=""):
    """Each name, also those within: its full title, and the name."""
    for name in names:
        title = name.title.split(", ")[0]
        yield above + title, name
        yield from every(name.within, f"{above}{title}.")


def without_words(language, parts):
    """What is wrong with the words of a language's names: one line for each."""
    plain, met = PLAIN.get(language, set()), set()
    for part in parts:
        for title, name in every(part.names):
            met.add(title)
            if not name.words and title not in plain:
                yield f"{language}: {title} of {part.title} has no words"
    for title in sorted(plain - met):
        yield f"{language}: there is no {title}, which tools/names/missing.py lists"


def folded(name):
    """A name without what differs between languages."""
    return name.replace("_", "").lower()


def scope_of(text):
    """Whether what stands in such a place is about a group, a sharded map, proofs or a store."""
    kinds = ("verifier", "group", "sharded")
    return next((it for it in kinds if it in text.lower()), "store")


def calls_of(parts):
    """The names of a language, each with what it is about."""
    for part in parts:
        for title, _ in every(part.names):
            *above, name = title.replace("::", ".").split(".")
            scope = scope_of(" ".join([part.title, *above]))
            yield scope, folded(name)
            if name in ("OpenSharded", "open_sharded"):
                yield "sharded", folded(name)


def wanted(call, language):
    """What a language has to have for a call for C: what it is about, and its name."""
    scope = "verifier" if call.startswith("mst_verify") else scope_of(call)
    name = call.removeprefix("mst_")
    if scope in ("group", "sharded"):
        name = name.removeprefix("sharded_").removeprefix("group_")
    renamed = RENAMED.get(language, {})
    if call in renamed:
        # what opens and ends a group may stand at the writer
        return {"group", "sharded"} if scope == "group" else {scope}, renamed[call]
    return {scope}, name


def without_calls(language, parts, header):
    """The calls for C that a language should have and has not: one line for each."""
    there = set(calls_of(parts))
    for call in header:
        about_proofs = call.startswith("mst_verify")
        if call in OTHERWISE or language not in (VERIFIERS if about_proofs else STORES):
            continue
        scopes, name = wanted(call, language)
        if name is not None and not any((it, folded(name)) in there for it in scopes):
            yield f"{language} has nothing for {call}"


def in_header(parts):
    """The calls of the headers for C."""
    names = [name for part in parts for _, name in every(part.names)]
    return [it.title for it in names if it.title.startswith("mst_") and it.code.endswith(");")]
