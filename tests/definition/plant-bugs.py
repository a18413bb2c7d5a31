#!/usr/bin/env python3
"""Plants bugs in the definition of a run and asks the samples about each.

    tests/definition/plant-bugs.py [NAME ... | PART/OF]

In a scratch copy of the repository, whose promises are left out, the definition is changed in one place, and the samples
are put to it. A bug that the samples do not refute is left over. The last line says how many are. 2/3 is the second third
of the bugs.
"""
import os
import re
import shutil
import subprocess
import sys
import tempfile

ROOT = os.path.dirname(os.path.dirname(os.path.dirname(os.path.abspath(__file__))))
SPECS = "crates/run/specs"

# name, file, text, text in its place
BUGS = [
    ("a statement charges nothing", "Statements", "      pays x.at\n      begun x.at x.stmt", "      begun x.at x.stmt"),
    ("an expression charges nothing", "Statements", "    pays (expr_of e).at\n    worth", "    worth"),
    ("an assignment has no charge of its own", "Statements", "      v ← evaluate e\n      pays at\n      f ←", "      v ← evaluate e\n      f ←"),
    ("an assignment charges before its expression", "Statements", "      v ← evaluate e\n      pays at\n      f ←", "      pays at\n      v ← evaluate e\n      f ←"),
    ("return gives unit", "Statements", "ends (gone at t v)", "ends (gone at t m.unit)"),
    ("a throw has no position", "Statements", "fault = fault.Thrown v; at = at", "fault = fault.Thrown v; at = nowhere"),
    ("a rethrow keeps the old position", "Statements", "at = second.at }", "at = first.at }"),
    ("a rethrow throws unit", "Statements", "rethrown true first second = record { fault = first.fault;", "rethrown true first second = record { fault = second.fault;"),
    ("import evaluates its path before the limit of modules", "Statements", "      b ← does another\n      loadable at b\n      v ← evaluate e\n", "      v ← evaluate e\n      b ← does another\n      loadable at b\n"),
    ("let looks for room only after its expression", "Statements", "      b ← does (room 1)\n      roomy at b\n      v ← evaluate e\n      c ←", "      v ← evaluate e\n      c ←"),
    ("let looks for room only before its expression", "Statements", "      c ← does (room 1)\n      roomy at c\n", ""),
    ("let evaluates before it asks for leave", "Statements", "      a ← does (permit (rule_name n) (access_for c))\n      permitted at (rule_name n) a\n      declared at (rule_name n) (access_for c) e r",
     "      v ← evaluate e\n      a ← does (permit (rule_name n) (access_for c))\n      permitted at (rule_name n) a\n      does (declare (variable (rule_name n) (access_for c) v))\n      give m.unit"),
    ("a constant may be assigned", "Statements", "writable at name Constant = fails (fault.ConstantTarget name) at", "writable at name Constant = give tt"),
    ("an assignment asks binary before apply", "Statements", "(m.binary o old v)) (m.apply o old v)", "(m.apply o old v)) (m.binary o old v)"),
    ("the operands of an assignment are exchanged", "Statements", "(m.binary o old v)) (m.apply o old v)", "(m.binary o v old)) (m.apply o v old)"),
    ("while evaluates a plain true", "Statements", "always True = true", "always True = false"),
    ("do forgets its negation", "Statements", "turned (cond negated (not b) b)", "turned b"),
    ("if always takes its body", "Statements", "sub (run (cond b p q))", "sub (run p)"),
    ("for does not look for room first", "Statements", "      b ← does (room (for_room c))\n      roomy at b\n      v ← evaluate e\n", "      v ← evaluate e\n"),
    ("for's counter begins with 1", "Statements", "for_values (Some c) i v = m.make_whole i", "for_values (Some c) i v = m.make_whole (suc i)"),
    ("for needs room for one name with a counter", "Statements", "for_room (Some c) = 2", "for_room (Some c) = 1"),
    ("a faulty item has no position", "Statements", "at = at_or f.at here", "at = f.at"),
    ("a catch takes every fault", "Statements", "handled (catchable f.fault) at n q f", "handled true at n q f"),
    ("a catch does not look for room", "Statements", "      b ← does (room 1)\n      roomy at b\n      outcome", "      outcome"),
    ("a caught statement gives its handler's value", "Statements", "caught_end f (value v) = give m.unit", "caught_end f (value v) = give v"),
    ("an empty body charges nothing", "Statements", "    body true at p = do\n      pays at\n      give", "    body true at p = do\n      give"),
    ("a fault's own position is dropped", "Statements", "at_or own other = cond (own.line == 0 && own.column == 0) other own", "at_or own other = other"),
    ("a fault of allow gets the statement's position", "Statements", "(fault.Host f.code f.catchable) f.at", "(fault.Host f.code f.catchable) (at_or f.at at)"),
    ("a wrong kind has no position", "Statements", "known at None = fails fault.WrongKind at", "known at None = fails fault.WrongKind nowhere"),
    ("break gives unit", "Statements", "left true v = broke v\n", "left true v = again\n"),
    ("a thrown value is caught as unit", "Statements", "told unit f (fault.Thrown v) = v", "told unit f (fault.Thrown v) = unit"),
    ("a block ends with its first value", "Statements", "in_order w (suc j) n))", "in_order v (suc j) n))"),
    ("the mark is not restored", "Walk", "    mark = was.mark;", "    mark = s.mark;"),
    ("the level is not restored", "Walk", "    level = was.level;", "    level = s.level;"),
    ("imports are kept in an inner block", "Walk", "    bound = shortened s.imports s.bound was.bound;", "    bound = s.bound;"),
    ("names are kept in an inner block", "Walk", "    names = shortened s.vars s.names was.names;", "    names = s.names;"),
    ("a host's names do not put the mark on", "Walk", "mark = s.mark || nat_lt s.names (length e.rows);", "mark = s.mark;"),
    ("the limit of operations is off by one", "Walk", "pay (nat_lt s.count limit)", "pay (nat_le s.count limit)"),
    ("a stop does not count its charge", "Walk", "pay false p s next = record { out = stopped p; state = charged s;", "pay false p s next = record { out = stopped p; state = s;"),
    ("the limit of names is off by one", "Walk", "silent (nat_le (s.names + k) (most s)) s", "silent (nat_lt (s.names + k) (most s)) s"),
    ("the limit of modules is off by one", "Walk", "perform another s = silent (nat_lt s.loaded", "perform another s = silent (nat_le s.loaded"),
    ("an index may not reach the first name", "Walk", "cond (nat_le r s.names)", "cond (nat_lt r s.names)"),
    ("a search by index heeds no mark", "Walk", "sought s p (Some r) = cond s.mark (by_name s (named s p)) (by_index s r)", "sought s p (Some r) = by_index s r"),
    ("a loop's names keep their access", "Walk", "redeclared r ReadWrite v)", "revalued r v)"),
    ("a loop's names stay", "Walk", "dropping s.names (noting", "dropping (s.names + 1) (noting"),
    ("a block's modules are not counted after it", "Walk", "    loaded = s.loaded;\n    level = was.level;", "    loaded = was.loaded;\n    level = was.level;"),
    ("an exit is a value only where it is not asked for", "Session", "outcome_of unit true (ended (exited p v)) = Ok v\noutcome_of unit false", "outcome_of unit false (ended (exited p v)) = Ok v\noutcome_of unit true"),
    ("a run keeps the imports of the last", "Session", "    bound = 0;\n    loaded = 0;", "    bound = u.bound;\n    loaded = 0;"),
    ("a name may end one past the text", "Session", "nat_lt (length t.site) (offset + size)", "nat_lt (length t.site + 1) (offset + size)"),
    ("put looks for room before the name", "Session", "refusing (nameless offset size) Name u (refusing (nat_le t.names u.names) Full u (putting", "refusing (nat_le t.names u.names) Full u (refusing (nameless offset size) Name u (putting"),
    ("put may pass the limit by one", "Session", "nat_le t.names u.names", "nat_lt t.names u.names"),
    ("one row less suffices", "Session", "(t.names + 2)", "(t.names + 1)"),
    ("127 names may be asked for", "Session", "nat_le t.names 126", "nat_le t.names 127"),
    ("no operations may be asked for", "Session", "nat_le 1 t.operations", "nat_le 0 t.operations"),
    ("17 modules may be asked for", "Session", "nat_le t.modules 16", "nat_le t.modules 17"),
]


def scratch():
    """A copy of the repository whose crate of the definition promises nothing."""
    folder = tempfile.mkdtemp(prefix="definition-")
    for part in ("crates", "crates.txt"):
        source = os.path.join(ROOT, part)
        if os.path.isdir(source):
            shutil.copytree(source, os.path.join(folder, part), symlinks=True)
        elif os.path.exists(source):
            shutil.copy(source, os.path.join(folder, part))
    return folder


def proved(folder, crate):
    done = subprocess.run(["rt", "check"], cwd=os.path.join(folder, "crates", crate), stdout=subprocess.PIPE, stderr=subprocess.STDOUT, text=True)
    return done.returncode == 0, done.stdout


def unpromised(folder):
    run = os.path.join(folder, "crates/run")
    for name in os.listdir(os.path.join(run, "proofs")):
        path = os.path.join(run, "proofs", name)
        shutil.rmtree(path) if os.path.isdir(path) else os.remove(path)
    with open(os.path.join(run, "proofs/Lib.antt"), "w") as f:
        f.write("")
    with open(os.path.join(run, "src/lib.rt"), "w") as f:
        f.write("//! The definition alone.\n\n/// Promises nothing.\npub fn nothing() -> u8 {\n    0\n}\n")


def plant(folder, file, old, new):
    path = os.path.join(folder, SPECS, file + ".antt")
    with open(os.path.join(ROOT, SPECS, file + ".antt")) as f:
        text = f.read()
    if text.count(old) < 1:
        return False
    with open(path, "w") as f:
        f.write(text.replace(old, new, 1))
    return True


def restore(folder, file):
    shutil.copy(os.path.join(ROOT, SPECS, file + ".antt"), os.path.join(folder, SPECS, file + ".antt"))


def verdict(bare):
    good, said = proved(bare, "samples")
    if good:
        return "survives the samples"
    if "the library run did not build" in said or "no library was built" in said:
        return "is no definition"
    return "refuted by a sample"


def chosen(words):
    part = re.fullmatch(r"(\d+)/(\d+)", words[0]) if words else None
    if part:
        return BUGS[int(part[1]) - 1 :: int(part[2])]
    return [b for b in BUGS if not words or b[0] in words]


def main():
    bugs = chosen(sys.argv[1:])
    bare = scratch()
    unpromised(bare)
    good, said = proved(bare, "samples")
    if not good:
        sys.exit("the definition as it stands does not pass:\n" + said[-3000:])
    left = []
    for name, file, old, new in bugs:
        if old == new or not plant(bare, file, old, new):
            print(f"not planted: {name}", flush=True)
            left.append(name)
            continue
        says = verdict(bare)
        restore(bare, file)
        print(f"{says}: {name}", flush=True)
        if says != "refuted by a sample":
            left.append(name)
    shutil.rmtree(bare)
    print(f"{len(left)} left of {len(bugs)}")


if __name__ == "__main__":
    main()
