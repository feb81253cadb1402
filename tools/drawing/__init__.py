"""The pictures of docs/pictures, each by the function that draws it."""
from . import blocks, chosen, commits, crates, engines, gathering, holders, place, put, recovery
from . import row, sharded, sizes, threads, tree, trust, versions

PICTURES = {
    "place": place.picture,
    "tree": tree.picture,
    "versions": versions.picture,
    "put": put.picture,
    "row": row.picture,
    "crates": crates.picture,
    "sharded": sharded.picture,
    "blocks": blocks.picture,
    "holders": holders.picture,
    "commits": commits.picture,
    "gathering": gathering.picture,
    "recovery": recovery.picture,
    "sizes": sizes.picture,
    "engines": engines.picture,
    "chosen": chosen.picture,
    "threads": threads.picture,
    "trust": trust.picture,
}
