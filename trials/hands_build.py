"""Cases of `./build`, and of what `./cryfs` says of a program that isn't built of the sources as they are."""
import os
import shutil
import time

from hands_tree import LIMIT, RT, has, needs, require, same, wait_until

CHANGED = "the sources have changed"


def notice(tree):
    """What a run says to standard error."""
    status, _, errors = tree.run("b", "s", "trial")
    same(status, 5, "the program's status")
    return errors


def is_told_once(tree):
    has(notice(tree), CHANGED, "./build")
    same(notice(tree).count("\n"), 1, "lines of the notice")


def says_that_rt_is_missing(tree):
    status, out, errors = tree.build(with_rt=False)
    same((status, out), (1, ""), "without rt")
    has(errors, "there is no rt on the PATH")


def builds_once_and_tells(tree):
    status, out, errors = tree.build()
    same((status, out), (0, ""), "the build")
    has(errors, "proving and building", "minutes", "proved 1 of 3: block_id\n", "proved 3 of 3: outside\n", "out/cryfs.log")
    has(tree.read("crates/cryfs/out/cryfs.log"), "logic=proved")
    status, _, errors = tree.build()
    same((status, tree.calls()), (0, ["ci"]), "the second build")
    has(errors, "is built of these sources")
    same(notice(tree), "", "what a run says")
    has(tree.run("--version")[1], "the program is built of them")


def a_run_builds_nothing(tree):
    for words in (("b", "s", "trial"), ("b", "s", "ls", "/")):
        status, out, errors = tree.run(*words)
        same((status, out, tree.calls()), (125, "", []), "a run where nothing is built")
        has(errors, "isn't built yet", "/build", "minutes")
    tree.built().write("crates/block_id/src/lib.rt", "pub fn two() {}\n")
    status, out, errors = tree.run("b", "s", "trial", given=b"mkdir /a\n")
    same((status, tree.calls()), (5, []), "a run over changed sources")
    has(out, "words b s trial\nline mkdir /a\n")
    same(errors.count("\n"), 1, errors)
    has(errors, CHANGED, "what was built is run", "./build")


def notices_a_change(tree):
    tree.built().write("crates/block_id/src/lib.rt", "pub fn two() {}\n")
    is_told_once(tree)
    has(tree.build()[2], "proving what changed")
    os.utime(f"{tree.top}/crates/block_id/src/lib.rt")
    tree.write("crates/path_tests/src/lib.rt", "pub fn two() {}\n")
    same(notice(tree), "", "after a touch, and a change of a crate that the program doesn't use")
    tree.write("crates/block_id/proofs/more.antt", "")
    is_told_once(tree)
    tree.build()
    os.remove(f"{tree.top}/crates/block_id/proofs/more.antt")
    is_told_once(tree)
    tree.build()
    tree.write("crates/block_id/must-fail/two.edit", "file: src/lib.rt\n")
    tree.write("crates/block_id/plants/three.edit", "file: src/lib.rt\n")
    same(notice(tree), "", "after a change of wrong bodies")


def notices_a_change_that_is_undone(tree):
    tree.built().write("crates/block_id/src/lib.rt", "pub fn two() {}\n")
    is_told_once(tree)
    tree.write("crates/block_id/src/lib.rt", "pub fn one() {}\n")
    same(notice(tree), "", "after it was undone")


def notices_a_change_with_an_old_time(tree):
    tree.built().write("crates/block_id/src/lib.rt", "pub fn two() {}\n")
    os.utime(f"{tree.top}/crates/block_id/src/lib.rt", (10**9, 10**9))
    is_told_once(tree)


def sums_the_sources_once_for_each_change(tree):
    tree.built()
    for text in ("pub fn one() {}\n", "pub fn two() {}\n"):
        tree.write("crates/block_id/src/lib.rt", text)
        told = notice(tree)
        # (taken for the module that sums, where that is asked for)
        tree.write("wrapper/prove.py", "raise SystemExit('summed again')\n")
        same(notice(tree), told, "the next run")
        os.remove(f"{tree.top}/wrapper/prove.py")


def notices_a_change_in_the_midst(tree):
    tree.write("slow", "")
    started = tree.start(script=f"{tree.top}/build")
    wait_until(tree.calls, "the build never began")
    time.sleep(0.3)
    tree.write("crates/block_id/src/lib.rt", "pub fn two() {}\n")
    started.communicate(timeout=LIMIT)
    is_told_once(tree)


def a_change_that_is_undone_in_the_midst_is_not_kept(tree):
    # The build takes the changed source, and by its end the old one is there again.
    source = f"{tree.top}/crates/block_id/src/lib.rt"
    tree.write("slow", "")
    prove = tree.read("tools/prove.py")
    begins = f"def main(words):\n    open({source!r}, 'w').write('pub fn two() {{}}')\n"
    tree.write("tools/prove.py", prove.replace("def main(words):\n", begins))
    started = tree.start(script=f"{tree.top}/build")
    wait_until(tree.calls, "the build never began")
    tree.write("crates/block_id/src/lib.rt", "pub fn one() {}\n")
    started.communicate(timeout=LIMIT)
    is_told_once(tree)


def a_program_of_unknown_sources_is_told(tree):
    os.remove(f"{tree.built().top}/crates/cryfs/out/cryfs.sources")
    has(notice(tree), "it isn't known of which sources")
    has(tree.build()[2], "proving what changed")
    same(notice(tree), "", "after a build")


def an_empty_program_is_no_program(tree):
    tree.built().write("crates/cryfs/out/cryfs", "", 0o755)
    status, _, errors = tree.run("b", "s", "trial")
    same(status, 125, "over an empty program")
    has(errors, "isn't built yet")
    has(tree.build()[2], "proving and building")
    same(notice(tree), "", "after a build")


def what_editors_leave_is_passed_over(tree):
    tree.write("bin/rt", RT.replace("\nfor", '\n(find crates; cat crates/block_id/proofs/odd) >"$top/seen"\nfor', 1), 0o755)
    source = f"{tree.top}/crates/block_id/src"
    os.makedirs(f"{tree.top}/crates/block_id/proofs")
    odd = b"\xff\xfe\r\n\x00"
    for name in (".lib.rt.swp", "lib.rt~", "#lib.rt#", "../proofs/odd"):
        with open(f"{source}/{name}", "wb") as file:
            file.write(odd)
    os.symlink("somebody@somewhere.1", f"{source}/.#lib.rt")
    os.symlink("nowhere", f"{source}/link")
    os.mkfifo(f"{source}/pipe")
    status, _, errors = tree.build()
    same(status, 0, errors)
    with open(f"{tree.top}/seen", "rb") as file:
        names, _, rest = file.read().rpartition(odd)
    same(rest, b"", "after the bytes of a file that isn't text")
    same({it for it in names.decode().split() if "block_id/" in it},
         {"crates/block_id/" + it for it in ("src", "src/lib.rt", "proofs", "proofs/odd")}, "what is copied")
    for name in os.listdir(source):
        if name != "lib.rt":
            os.remove(f"{source}/{name}")
    same(notice(tree), "", "once they are away")


def a_refused_proof_names_its_log(tree):
    tree.built().write("crates/block_id/src/lib.rt", "pub fn wrong() {}\n")
    tree.write("refused", "")
    for _ in range(2):
        status, out, errors = tree.build()
        same((status, out), (1, ""), "a refused proof, with an older program there")
        has(errors, "a goal is open", "block_id NOT PROVED", "the program isn't built", "out/cryfs.log")
    os.remove(f"{tree.top}/refused")
    same(tree.build()[0], 0, "once it is mended")


def a_build_that_is_cut_off_counts_for_nothing(tree):
    tree.built().write("crates/block_id/src/lib.rt", "pub fn two() {}\n")
    tree.write("half", "")
    same(tree.build()[0], 1, "a cut off build")
    has(notice(tree), "it isn't known of which sources")
    os.remove(f"{tree.top}/half")
    has(tree.build()[2], "proving")
    same(notice(tree), "", "after a whole build")


def two_at_once_build_once(tree):
    tree.write("slow", "")
    first = tree.start(script=f"{tree.top}/build")
    wait_until(tree.calls, "the first never built")
    second = tree.start(script=f"{tree.top}/build")
    _, errors = second.communicate(b"", timeout=LIMIT)
    has(errors.decode(), "another build is at work; waiting for it", "is built of these sources")
    first.communicate(b"", timeout=LIMIT)
    same((first.returncode, second.returncode, len(tree.calls())), (0, 0, 1), "statuses, and calls of rt")


def a_folder_that_is_not_to_be_written_is_told(tree):
    for path in ("crates/cryfs/out/cryfs.lock/one", "crates/cryfs/out"):
        tree.write(path, "")
        status, out, errors = tree.build()
        same((status, out), (1, ""), path)
        same((errors.count("\n"), tree.calls()), (1, []), errors)
        has(errors, "cryfs: the program can't be built")
        shutil.rmtree(f"{tree.top}/crates/cryfs/out", ignore_errors=True)


def words_of_the_build_are_looked_at(tree):
    for words in (("install",), ("--install",), ("--install", "a", "b"), ("b", "s", "trial")):
        status, _, errors = tree.build(*words)
        same((status, tree.calls()), (1, []), words)
        has(errors, "--install PREFIX")
    status, out, _ = tree.build("--help")
    same(status, 0, "help")
    has(out, "./build --install PREFIX")


def installs_and_removes(tree):
    prefix = f"{tree.top}/some where"
    status, _, errors = tree.build("--install", prefix)
    same(status, 0, errors)
    has(errors, "to remove it: rm -r")
    for name in ("crates", "tools", "build", "wrapper", "cryfs"):
        os.rename(f"{tree.top}/{name}", f"{tree.top}/old.{name}")
    script = f"{prefix}/bin/cryfs"
    status, out, errors = tree.run("b", "s", "trial", script=script, cwd="/usr")
    same((status, errors), (5, ""), "the installed program")
    has(out, " in /usr\nwords b s trial\n")
    has(tree.run("--help", script=script)[1], "BLOCKS", "--blocksize", f"More: {prefix}/share/doc/sergunad/USING.md")
    has(tree.run("--version", script=script)[1], "built of the sources ")
    require(os.path.exists(f"{prefix}/share/doc/sergunad/USING.md"), "no help")
    completion = f"{prefix}/share/bash-completion/completions/cryfs"
    same(open(completion).read(), open(f"{prefix}/lib/sergunad/wrapper/completion.bash").read(), "the words for bash")
    with open(completion, "w") as file:
        file.write("another's")
    for name in ("crates", "tools", "build", "wrapper", "cryfs"):
        os.rename(f"{tree.top}/old.{name}", f"{tree.top}/{name}")
    same(tree.build("--install", prefix)[0], 0, "over what is there")
    same(open(completion).read(), "another's", "another's words for bash")
    os.remove(script)
    tree.write("some where/bin/cryfs", "another's")
    has(tree.build("--install", prefix)[2], "isn't ours")
    same(tree.read("some where/bin/cryfs"), "another's", "what was there")


def the_tab_key_of_bash_knows_the_words(tree):
    needs("/bin/bash")
    import forms
    os.makedirs(f"{tree.top}/photos")
    late = " ".join(forms.LATE_OPTIONS["update"])
    for typed, wanted in (('""', "photos"), ("--n", "--names"), ("--names = ''", "plain exact"), ("--strict --password-file crates.t", "crates.txt"),
                          ("b s ''", " ".join(forms.COMMANDS)), ("b s mk", "mkdir mkfile"), ("--names plain b s imp", "import"), ("b s import pho", "photos"),
                          ("b s update photos / --", late), ("b s create --blo", "--blocksize"), ("b s check --", "--all --quiet"), ("b s get ''", "")):
        script = f"source wrapper/completion.bash; compopt() {{ :; }}; COMP_WORDS=(cryfs {typed}); COMP_CWORD=$((${{#COMP_WORDS[@]}} - 1)); _cryfs; echo ${{COMPREPLY[*]}}"
        status, out, errors = tree.run("-c", script, script="/bin/bash")
        same((status, errors), (0, ""), typed)
        found = [it for it in out.split() if it in ("photos", "crates.txt") or not os.path.exists(f"{tree.top}/{it}")]
        same(sorted(found), sorted(wanted.split()), typed)
    tree.exported = {"CRYFS_BLOCKS": "b", "CRYFS_STATE": "s"}
    script = "source wrapper/completion.bash; compopt() { :; }; COMP_WORDS=(cryfs ls -); COMP_CWORD=2; _cryfs; echo ${COMPREPLY[*]}"
    same(tree.run("-c", script, script="/bin/bash"), (0, "-l -R -lR\n", ""), "with the folders in the environment")


def links_work_from_any_folder(tree):
    tree.built()
    os.makedirs(f"{tree.top}/some where/bin")
    os.symlink("../../cryfs", f"{tree.top}/some where/bin/cryfs")
    os.symlink(f"{tree.top}/some where/bin/cryfs", f"{tree.top}/second")
    for script in (f"{tree.top}/some where/bin/cryfs", f"{tree.top}/second"):
        status, out, _ = tree.run("b", "s", "trial", script=script, cwd="/usr")
        same(status, 5, script)
        has(out, " in /usr\nwords b s trial\n")
    same(tree.run("b", "s", "trial", script="./cryfs", cwd=f"{tree.top}/some where/bin")[0], 5, "a relative call")


CASES = [says_that_rt_is_missing, builds_once_and_tells, a_run_builds_nothing, notices_a_change, notices_a_change_that_is_undone,
         notices_a_change_with_an_old_time, sums_the_sources_once_for_each_change, notices_a_change_in_the_midst,
         a_change_that_is_undone_in_the_midst_is_not_kept, a_program_of_unknown_sources_is_told, an_empty_program_is_no_program,
         what_editors_leave_is_passed_over, a_refused_proof_names_its_log, a_build_that_is_cut_off_counts_for_nothing,
         two_at_once_build_once, a_folder_that_is_not_to_be_written_is_told, words_of_the_build_are_looked_at, installs_and_removes,
         the_tab_key_of_bash_knows_the_words, links_work_from_any_folder]
