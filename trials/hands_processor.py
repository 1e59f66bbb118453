"""Cases of the programs for two kinds of processors: what `./build` makes, and which one `./cryfs` runs."""
import os
import re
import sys

from hands_tree import CRATES, WIDE, Terminal, has, same

PLAIN_CPU, WIDE_CPU = "x86-64-v2", "x86-64-v3"
# What the system tells of a processor that has all, and of one that lacks the last.
FLAGS = "processor\t: 0\nflags\t\t: fpu sse2 avx avx2 bmi1 bmi2 f16c fma abm movbe\n\n"
# Asks the wrapper's module for a program by its crate.
ASK = "import sys; sys.path[:0] = ['wrapper']; from built import Built; print(Built().to_run(sys.argv[1]))"


def with_wide(tree, program=WIDE):
    """The tree with its programs built of both kinds."""
    tree.write("wide", program, 0o755)
    return tree.built()


def on(tree, flags):
    """The tree on a processor with these flags, or, without any, where the system tells none."""
    if flags is None:
        os.remove(f"{tree.top}/cpuinfo")
    else:
        tree.write("cpuinfo", flags)
    module = tree.read("wrapper/processor.py")
    tree.write("wrapper/processor.py", module.replace('"/proc/cpuinfo"', repr(f"{tree.top}/cpuinfo")))
    return tree


def runs_wide(tree, script=None):
    """Whether the one for AVX2 is run."""
    status, out, errors = tree.run("b", "s", "trial", script=script)
    same((status, errors), (5, ""), "the program's status")
    has(out, "words b s trial\n")
    return out.startswith("wide\n")


def one_more_is_built_for_avx2(tree):
    tree.write("wide", WIDE, 0o755)
    status, out, errors = tree.build()
    same((status, out), (0, ""), "the build")
    has(errors, "proved 3 of 3: outside\n", "building for processors with AVX2\n", "built: cryfs, cryfs.v3\n", "/cryfs runs what was built\n")
    same(tree.calls(), ["ci"], "calls of rt")
    words = tree.read("rattled")
    same(words.count("\n"), 1, words)
    room = f"{tree.top}/crates/cryfs/out/room"
    has(words, f"--cpu={WIDE_CPU} ", " --crate-name cryfs src/main.rt ", f" block_id={room}/crates/block_id/out/rlib/block_id.rlib ",
        f" std={tree.top}/rlibs/std.rlib ")
    same(tree.read("crates/cryfs/out/cryfs.sources"), tree.read("crates/cryfs/out/cryfs.v3.sources"), "the sums")
    has(tree.build()[2], "is built of these sources")


def the_processor_says_which_is_run(tree):
    with_wide(tree)
    same(runs_wide(on(tree, FLAGS)), True, "with all flags")
    for lacking in ("avx", "avx2", "bmi1", "bmi2", "f16c", "fma", "abm", "movbe"):
        same(runs_wide(on(tree, re.sub(rf" {lacking}\b", "", FLAGS))), False, lacking)
    for flags in ("", "Features\t: fp asimd\n", FLAGS.replace("flags", "vmx flags"), None):
        same(runs_wide(on(tree, flags)), False, flags)


def the_environment_may_say_it(tree):
    on(with_wide(tree), FLAGS)
    tree.exported = {"CRYFS_CPU": PLAIN_CPU}
    same(runs_wide(tree), False, PLAIN_CPU)
    on(tree, "")
    tree.exported = {"CRYFS_CPU": WIDE_CPU}
    same(runs_wide(tree), True, WIDE_CPU)
    tree.exported = {"CRYFS_CPU": "x86-64-v4"}
    status, out, errors = tree.run("b", "s", "trial")
    same((status, out), (125, ""), "another word")
    has(errors, "CRYFS_CPU is x86-64-v2 or x86-64-v3, and not x86-64-v4")


def one_that_could_not_be_made_is_told(tree):
    status, _, errors = tree.build()
    same(status, 0, errors)
    has(errors, "cryfs isn't built for x86-64-v3, so the other one serves all processors: rattle made nothing\n", "built: cryfs\n")
    tree.write("s/cryfs.localstate", "a record")
    same(runs_wide(on(tree, FLAGS)), False, "the other one")
    has(tree.build()[2], "is built of these sources")
    tree.exported = {"CRYFS_CPU": WIDE_CPU}
    status, out, errors = tree.run("b", "s", "trial")
    same((status, out), (125, ""), "where it is asked for")
    has(errors, "there is none of these sources")


def one_that_does_other_than_the_gate_wants_is_left(tree):
    for program, kept in (("#!/bin/sh\nexit 3\n", False), ("#!/bin/sh\necho more\n", False), ("#!/bin/sh\nexit 127\n", True),
                          ("#!/bin/sh\n[ \"$*\" = 'a b' ] && read -r line && echo $line\n", False)):
        tree.write("wide", program, 0o755)
        tree.write("crates/outside/src/lib.rt", f"use block_id;\n// {program!r}\n")
        status, _, errors = tree.build()
        same((status, os.path.exists(f"{tree.top}/crates/cryfs/out/cryfs.v3")), (0, kept), program)
        same("isn't built for x86-64-v3" in errors, not kept, errors)
    for name, text in {"args": "a\nb\n", "stdin": "one\ntwo\n", "stdout": "one\n"}.items():
        tree.write(f"crates/cryfs/{name}", text)
    has(tree.build()[2], "built: cryfs, cryfs.v3\n")


def one_of_other_sources_is_not_run(tree):
    on(with_wide(tree), FLAGS)
    tree.write("crates/cryfs/out/cryfs.v3.sources", "0123\n")
    same(runs_wide(tree), False, "another sum")
    os.remove(f"{tree.top}/crates/cryfs/out/cryfs.v3.sources")
    same(runs_wide(tree), False, "no sum")
    os.remove(f"{tree.top}/crates/cryfs/out/cryfs.sources")
    status, out, errors = tree.run("b", "s", "trial")
    same((status, out.startswith("wide")), (5, False), "no sum of either")
    has(errors, "it isn't known of which sources")
    has(tree.build()[2], "built: cryfs, cryfs.v3\n")
    same(runs_wide(tree), True, "built anew")
    os.remove(f"{tree.top}/wide")
    tree.write("crates/block_id/src/lib.rt", "pub fn two() {}\n")
    has(tree.build()[2], "built: cryfs\n")
    same((os.path.exists(f"{tree.top}/crates/cryfs/out/cryfs.v3"), runs_wide(tree)), (False, False), "an older one")


def an_empty_one_is_not_run(tree):
    on(with_wide(tree), FLAGS).write("crates/cryfs/out/cryfs.v3", "", 0o755)
    same(runs_wide(tree), False, "an empty one")


def an_unfit_processor_is_explained(tree):
    tree.built("#!/bin/sh\necho 'this machine lacks a feature of x86-64-v3' >&2\nexit 127\n")
    terminal = Terminal(tree, "b", "s", "trial")
    status, seen = terminal.end()
    same(status, 127, seen)
    has(seen, "lacks a feature", "CRYFS_CPU=x86-64-v2")


def a_second_program_is_built_beside(tree):
    tree.write("crates.txt", CRATES + "cryfs_mount: outside\n")
    tree.write("crates/cryfs_mount/src/lib.rt", "use outside;\n")
    tree.write("wide", WIDE, 0o755)
    status, _, errors = tree.build()
    same(status, 0, errors)
    has(errors, "proved 4 of 4: ", "built: cryfs, cryfs.v3, cryfs_mount, cryfs_mount.v3\n")
    on(tree, FLAGS)
    for name in ("cryfs", "cryfs_mount"):
        same(asked(tree, name), f"{tree.top}/crates/{name}/out/{name}.v3", "the one for this processor")
    os.remove(f"{tree.top}/crates/cryfs_mount/out/cryfs_mount.v3")
    same(asked(tree, "cryfs_mount"), f"{tree.top}/crates/cryfs_mount/out/cryfs_mount", "the other one")
    os.remove(f"{tree.top}/crates/cryfs_mount/out/cryfs_mount")
    has(tree.build()[2], "proving what changed", "cryfs_mount.v3\n")
    has(tree.build()[2], "is built of these sources")


def asked(tree, name):
    status, out, errors = tree.run("-c", ASK, name, script=sys.executable)
    same((status, errors), (0, ""), name)
    return out.strip()


def all_are_installed(tree):
    tree.write("crates.txt", CRATES + "cryfs_mount: outside\n")
    tree.write("crates/cryfs_mount/src/lib.rt", "use outside;\n")
    tree.write("wide", WIDE, 0o755)
    on(tree, FLAGS)
    prefix = f"{tree.top}/prefix"
    same(tree.build("--install", prefix)[0], 0, "the installation")
    wanted = [f"program{it}{of}" for it in ("", "_mount") for of in ("", ".v3")]
    wanted = {*wanted, *(f"{it}.sources" for it in wanted)}
    same(programs(prefix), wanted, "what is installed")
    same(runs_wide(tree, f"{prefix}/bin/cryfs"), True, "the installed one")
    os.remove(f"{tree.top}/wide")
    tree.write("crates.txt", CRATES)
    same(tree.build("--install", prefix)[0], 0, "over it, what is one program now, of one kind")
    same(programs(prefix), {"program", "program.sources"}, "what is left")
    same(runs_wide(tree, f"{prefix}/bin/cryfs"), False, "the other one")


def programs(prefix):
    return {it for it in os.listdir(f"{prefix}/lib/sergunad") if it.startswith("program")}


CASES = [one_more_is_built_for_avx2, the_processor_says_which_is_run, the_environment_may_say_it, one_that_could_not_be_made_is_told,
         one_that_does_other_than_the_gate_wants_is_left, one_of_other_sources_is_not_run, an_empty_one_is_not_run,
         an_unfit_processor_is_explained, a_second_program_is_built_beside, all_are_installed]
