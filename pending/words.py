#!/usr/bin/env python3
"""usage: words.py [WORD..]   (at the top of a worktree, behind merge.py, rename.py --apply and texts.py): one word, one meaning.
Without arguments every word. A word that is done already is left; one whose text is not found is named, and the status is 1."""
import os, re, subprocess, sys

failed = []


def read(path):
    with open(path, encoding="utf-8") as f:
        return f.read()


def write(path, text):
    with open(path, "w", encoding="utf-8") as f:
        f.write(text)


def files(*crates, ends=(".rt", ".antt", ".edit")):
    """The files of these crates, or of all."""
    roots = [f"crates/{c}" for c in crates] or ["crates"]
    return sorted(os.path.join(r, f) for root in roots for r, _, fs in os.walk(root) for f in fs if f.endswith(ends))


def texts():
    return ["README.md", "CONTRIBUTING.md"] + sorted(os.path.join(r, f) for r, _, fs in os.walk("docs") for f in fs if f.endswith(".md"))


def change(paths, rules):
    """Each rule, a pattern and what comes in its place, over these files; how many files changed."""
    count = 0
    for p in paths:
        t = n = read(p)
        for pattern, new in rules:
            n = re.sub(pattern, new, n)
        if n != t:
            write(p, n)
            count += 1
    return count


def must(word, path, text):
    if not os.path.exists(path) or text not in read(path):
        failed.append(f"{word}: {path} has no {text!r}")
        return False
    return True


def moved(old, new):
    if os.path.exists(old):
        subprocess.check_call(["git", "mv", old, new])


def two_sizes():
    """The shape of two sizes, which a pair and a past look have: frames' Message::Pair and frame_kinds' Shape::SizePair."""
    if "TwoSizes" in read("crates/frames/src/lib.rt"):
        return
    if not must("two_sizes", "crates/frames/src/lib.rt", "    Pair(u8, u16, u16),\n") or not must("two_sizes", "crates/frame_kinds/src/lib.rt", "    SizePair,\n"):
        return
    change(["crates/frames/src/lib.rt"], [(r"(?m)^    Pair\(u8, u16, u16\),$", "    TwoSizes(u8, u16, u16),")])
    for p in files():
        t = n = read(p)
        n = re.sub(r"\bSizePair\b", "TwoSizes", n)
        n = re.sub(r"\bMessage(::|\.)Pair\b", r"Message\1TwoSizes", n)
        if p.endswith((".antt", ".rt")) and re.search(r"declared\.Message\.the-variants\.\{[^}]*\bPair\b", n):
            n = re.sub(r"(?<![\w.·:-])Pair(?![\w·:-])", "TwoSizes", n)
            for line in re.findall(r"^.*specs\.(?:Calls|Reference)\.\{[^}]*\bTwoSizes\b.*$", n, re.M):
                failed.append(f"two_sizes: {p} imports two of the name: {line[:80]}")
        if n != t:
            write(p, n)
    change(texts(), [(r"`SizePair`", "`TwoSizes`"), (r"message `Pair`", "message `TwoSizes`"), (r"`Message::Pair`", "`Message::TwoSizes`")])


def preview_reply():
    """What a preview hands back: head's Effect. The effect of a turn on a tape keeps its name."""
    if "struct PreviewReply" in read("crates/head/src/replies.rt"):
        return
    if not must("preview_reply", "crates/head/src/replies.rt", "pub struct Effect {"):
        return
    for p in files():
        t = read(p)
        if re.search(r"specs\.Turns\.\{[^}]*\bEffect\b|record Effect\b", t):
            if re.search(r"declared\.replies\.Effect|head::Effect", t):
                failed.append(f"preview_reply: {p} has both")
            continue
        n = re.sub(r"(?<![\w·-])Effect(?![\w·-])", "PreviewReply", t)
        if n != t:
            write(p, n)
    change(["tools/walks.py"], [(r'"Effect"', '"PreviewReply"')])
    change(texts(), [(r"`Effect`", "`PreviewReply`")])


def all_incomparable():
    """Whether no row of a block is over or under a quote: table_finding's dull."""
    path = "crates/table_finding/src/lib.rt"
    if "fn all_incomparable" in read(path):
        return
    if not must("all_incomparable", path, "fn dull("):
        return
    rt = [(r"\bdull_columns\b", "incomparable_columns"), (r"\bdullIn\b", "allIncomparable"), (r"\bdull\b", "all_incomparable")]
    antt = [(r"dull_columns", "incomparable_columns"), (r"dull-columns", "incomparable-columns"), (r"\bdullIn\b", "allIncomparable"),
            (r"proofs\.dull\b(?!-)", "proofs.all_incomparable"), (r"`dull`", "`all_incomparable`"), (r"(?<![A-Za-z])dull(?![A-Za-z])", "all-incomparable")]
    change(files("table_finding", ends=(".rt", ".edit")), rt)
    change(files(ends=(".antt",)), antt)
    moved("crates/table_finding/proofs/dull", "crates/table_finding/proofs/all_incomparable")
    moved("crates/table_finding/proofs/dull_columns", "crates/table_finding/proofs/incomparable_columns")
    change(texts(), [(r"`dull_columns`", "`incomparable_columns`"), (r"`dull`", "`all_incomparable`"), (r"`dullIn`", "`allIncomparable`")])


def forget_expired():
    """Lower ends that name the expired position set to zero: table_cells' rename."""
    path = "crates/table_cells/src/lib.rt"
    if "fn forget_expired" in read(path):
        return
    if not must("forget_expired", path, "pub fn rename("):
        return
    change(files(ends=(".rt", ".edit")), [(r"(?<![\w.])rename(?=\()", "forget_expired"), (r"\btable_cells::rename\b", "table_cells::forget_expired")])
    change(files(ends=(".antt",)), [(r"proofs\.rename\b(?!-)", "proofs.forget_expired"), (r"`rename`", "`forget_expired`"),
                                    (r"(?<![A-Za-z])rename(?![A-Za-z])", "forget-expired")])
    moved("crates/table_cells/proofs/rename", "crates/table_cells/proofs/forget_expired")
    change(texts(), [(r"`rename`", "`forget_expired`")])


def request():
    """What a frame of a tape asks for: tape_asking's Wanted, and Wish, which holds it with where it was read."""
    path = "crates/tape_asking/src/lib.rt"
    if "enum Request" in read(path):
        return
    if not must("request", path, "pub enum Wanted {") or not must("request", path, "pub struct Wish {"):
        return
    rules = [(r"\bWanted\b", "Request"), (r"\bWish\b", "ReadRequest"), (r"\bWishAt\b", "RequestAt"), (r"\bwish_at\b", "request_at"), (r"(?<![A-Za-z])wish-at(?![A-Za-z])", "request-at"),
             (r"(?<![A-Za-z])wish-there(?![A-Za-z])", "request-there"), (r"proofs\.Wishes\b", "proofs.Requests"), (r"pub mod Wishes\b", "pub mod Requests"),
             (r"(?<![\w-])wish(?![\w-])", "request")]
    change(files(), rules)
    moved("crates/tape_asking/proofs/Wishes.antt", "crates/tape_asking/proofs/Requests.antt")
    moved("crates/tape_asking/proofs/wish_at", "crates/tape_asking/proofs/request_at")
    change(texts(), [(r"`Wanted`", "`Request`"), (r"`Wish`", "`ReadRequest`"), (r"`WishAt`", "`RequestAt`"), (r"`wish_at`", "`request_at`"), (r"proofs/Wishes\.antt", "proofs/Requests.antt")])


def reachable():
    """A reachable book, for one that calls left, in comments and texts."""
    rules = [(r"\ba book that calls left\b", "a reachable book"), (r"\bA book that calls left\b", "A reachable book"), (r"\bbooks that calls left\b", "reachable books"),
             (r"\bevery book that calls left\b", "every reachable book"), (r"\bthe book is one that calls left\b", "the book is reachable"),
             (r"\bThe book is one that calls left\b", "The book is reachable"), (r"\bbook is one that calls left\b", "book is reachable"),
             (r"reachable \(a reachable book\)", "reachable (a book that calls left)")]
    change(files() + texts(), rules)


WORDS = [two_sizes, preview_reply, all_incomparable, forget_expired, request, reachable]

if __name__ == "__main__":
    if not os.path.isdir("crates/table_cells"):
        sys.exit("words.py: run me at the top of a worktree, behind merge.py, rename.py --apply and texts.py")
    for word in WORDS:
        if len(sys.argv) == 1 or word.__name__ in sys.argv[1:]:
            word()
    for line in failed:
        print("NOT DONE:", line)
    sys.exit(bool(failed))
