"""What programs do to single files and folders. After each of these changes the view is the folder's content, and after something
more has happened in each folder again."""
import ctypes, functools, mmap, os, shutil, subprocess, time

from feed_site import later, site, tree, write
from server import at_once, check, until


def begin(root):
    tree(root, ["d", "d/e", "d/e/f", "other", "other/deep/er"], 3)
    write(root + "/file", "text")
    os.symlink("file", root + "/link")
    os.makedirs(root + "/empty")


def outside(root):
    """A folder beside the root, on the same file system."""
    path = os.path.dirname(root) + "/outside"
    os.makedirs(path, exist_ok=True)
    return path


def create(root):
    for folder in ("", "/d", "/d/e/f", "/empty"):
        write(root + folder + "/new")
        os.mknod(root + folder + "/nothing in it")


def overwrite(root):
    for n in range(20):
        write(f"{root}/d/e/f0", "x" * (n % 7))


def append(root):
    for n in range(20):
        write(f"{root}/d/e/f0", "more\n", "a")


def truncate(root):
    os.truncate(root + "/d/f0", 0)
    os.truncate(root + "/d/f1", 1_000_000)
    write(root + "/file", "")


def slow_writers(root):
    """Four that write now and then, and leave the file open until all is over."""
    kept = [open(f"{root}/d/slow{n}", "w") for n in range(4)]
    for n in range(40):
        kept[n % 4].write("line\n")
        kept[n % 4].flush()
        time.sleep(0.01 * (n % 5))
    slow_writers.kept = kept


def remove(root):
    os.unlink(root + "/file")
    os.unlink(root + "/link")
    os.rmdir(root + "/empty")
    shutil.rmtree(root + "/d")


def rename_files(root):
    os.rename(root + "/file", root + "/renamed")
    os.rename(root + "/d/f0", root + "/other/f9")
    os.rename(root + "/d/e/f1", root + "/d/e/f1~")
    os.rename(root + "/d/e/f1~", root + "/d/e/f1")


def rename_folders(root):
    os.rename(root + "/d", root + "/d2")
    os.rename(root + "/d2/e", root + "/other/deep/er/e")
    os.rename(root + "/other", root + "/empty/other")
    write(root + "/empty/other/deep/er/e/f/now", "x")


def rename_into(root):
    tree(outside(root), ["came/in/deep"], 5)
    write(outside(root) + "/file", "from outside")
    os.rename(outside(root) + "/came", root + "/d/came")
    os.rename(outside(root) + "/file", root + "/d/file")


def rename_out_of(root):
    os.rename(root + "/d/e", outside(root) + "/e")
    os.rename(root + "/file", outside(root) + "/file")
    write(outside(root) + "/e/f0", "no part of the root now")


def rename_out_and_in(root):
    for _ in range(5):
        os.rename(root + "/d", outside(root) + "/d")
        os.rename(outside(root) + "/d", root + "/other/d")
        os.rename(root + "/other/d", root + "/d")


def rename_over(root):
    write(root + "/d/fresh", "fresh")
    os.replace(root + "/d/fresh", root + "/file")
    os.replace(root + "/d/f0", root + "/d/f1")
    os.rename(root + "/d/e", root + "/empty")


def exchange(root):
    """Two names are exchanged in one step."""
    renameat2 = ctypes.CDLL(None, use_errno=True).renameat2
    for one, other in (("file", "d/f0"), ("d", "other"), ("other/e", "link")):
        renameat2(-100, f"{root}/{one}".encode(), -100, f"{root}/{other}".encode(), 2)


def links_elsewhere(root):
    os.unlink(root + "/link")
    os.symlink("d", root + "/link")
    os.symlink("nowhere at all", root + "/link2")
    os.rename(root + "/link2", root + "/link")
    os.symlink("..", root + "/d/up")
    os.symlink("/", root + "/d/top")
    os.symlink(root, root + "/d/e/root")


def folder_for_file(root):
    for _ in range(3):
        os.unlink(root + "/file")
        tree(root + "/file", ["in/it"], 2)
        shutil.rmtree(root + "/file")
        write(root + "/file", "a file again")
    os.unlink(root + "/file")
    tree(root + "/file", ["in/it"], 2)


def file_for_folder(root):
    shutil.rmtree(root + "/d")
    write(root + "/d", "a file")
    shutil.rmtree(root + "/other")
    os.symlink("d", root + "/other")
    shutil.rmtree(root + "/empty")
    tree(root + "/empty", ["again"], 2)


def folders_at_once(root):
    for n in range(30):
        path = f"{root}/n{n}/a/b/c/d"
        os.makedirs(path)
        for folder in (path, os.path.dirname(path), f"{root}/n{n}"):
            write(folder + "/file", "x" * n)
    for n in range(30):
        subprocess.run(["sh", "-c", 'mkdir -p "$1/e/e/e/g" && echo text > "$1/e/e/e/g/file"', "-", f"{root}/m{n}"], check=True)


def times_and_rights(root):
    os.utime(root + "/file", (1, 1))
    os.utime(root + "/d/f0", ns=(-10**18, -10**18))
    os.utime(root + "/d/e", (2**31, 2**31))
    os.chmod(root + "/d/f1", 0o400)
    os.chmod(root + "/d/f2", 0o755)


def mapped(root):
    with open(root + "/d/f0", "r+b") as file:
        file.truncate(8192)
        with mmap.mmap(file.fileno(), 8192) as memory:
            memory[100:104] = b"text"


def odd_names(root):
    names = ["new\nline", "tab\t", " ", "-", "-e", "*", 'q"uote', "back\\slash", "\\\\", "é\U0001F600", "%w%f%e", "@at",
             "Watches established.", "\x01\x7f", "'", "col:on,comma", "n" * 255,
             "\u0436" * 127, "'\"$(x)`", "nul\\0", "\n", "trailing ", ".", ".."]
    for name in names[:-2]:
        os.mkdir(f"{root}/d/{name}")
        write(f"{root}/d/{name}/{name}", name)
        write(f"{root}/d/{name}/{name}", name, "a")
    os.close(os.open(os.fsencode(root) + b"/d/\xff\xfe", os.O_CREAT | os.O_WRONLY))
    os.mkdir(os.fsencode(root) + b"/d/\xff folder")
    os.close(os.open(os.fsencode(root) + b"/d/\xff folder/file", os.O_CREAT | os.O_WRONLY))
    os.rename(f"{root}/d/new\nline", f"{root}/d/other\nline")
    os.mkfifo(root + "/d/pipe")


def long_paths(root):
    """Folders whose paths pass the 1,024 bytes that a view can hold."""
    path = root
    for n in range(6):
        path += "/" + str(n) * 200
        os.mkdir(path)
        write(path + "/file", "x")


def save_with_backup(root):
    """As vim saves: the file becomes a backup, is written anew, and the backup goes."""
    for n in range(5):
        os.rename(root + "/file", root + "/file~")
        write(root + "/file", f"saved {n}")
        os.unlink(root + "/file~")
        os.mknod(root + "/4913")
        os.unlink(root + "/4913")


def save_beside_a_lock(root):
    """As emacs saves: beside a link that names who has the file open."""
    os.symlink("me@here.1234:5678", root + "/d/.#f0")
    write(root + "/d/f0", "saved")
    os.rename(root + "/d/f0", root + "/d/f0~")
    write(root + "/d/f0", "saved")
    os.unlink(root + "/d/.#f0")


def save_by_rename(root):
    """To a new file that is renamed over the old one."""
    for n in range(10):
        with open(root + "/d/.f1.tmp", "w") as file:
            file.write("saved" * n)
            file.flush()
            os.fsync(file.fileno())
        os.replace(root + "/d/.f1.tmp", root + "/d/f1")


def save_in_place(root):
    for n in range(10):
        with open(root + "/d/f2", "r+") as file:
            file.truncate(0)
            file.flush()
            time.sleep(0.002)
            file.write("saved" * n)


def save_by_vim(root):
    if not shutil.which("vim"):
        return print("       vim isn't installed")
    for options in ("set backup backupcopy=no", "set nobackup writebackup", "set backupcopy=yes"):
        subprocess.run(["vim", "-es", "-u", "NONE", "-c", options, "-c", "normal ihello", "-c", "wq", root + "/file"],
                       stdin=subprocess.DEVNULL, check=False)


def by_many_at_once(root):
    """Four write, rename and remove the same names."""
    def run(seed):
        for n in range(150):
            name = f"{root}/d/e/n{(n * seed) % 7}"
            try:
                [lambda: write(name, "x" * n), lambda: os.unlink(name), lambda: os.rename(name, name + "'"),
                 lambda: os.makedirs(name + "d/x"),
                 lambda: shutil.rmtree(name + "d")][(n + seed) % 5]()
            except OSError:
                pass
    with at_once([functools.partial(run, seed) for seed in (1, 2, 3, 5)]):
        pass


CHANGES = [create, overwrite, append, truncate, slow_writers, remove, rename_files, rename_folders, rename_into, rename_out_of,
           rename_out_and_in, rename_over, exchange, links_elsewhere,
           folder_for_file, file_for_folder, folders_at_once, times_and_rights, mapped, odd_names, long_paths, save_with_backup,
           save_beside_a_lock, save_by_rename, save_in_place,
           save_by_vim, by_many_at_once]


def case_of(change):
    def case():
        with site(before=begin) as made:
            change(made.root)
            made.equal("the change")
            later(made.root)
            made.equal("what happens in each folder later")
            made.goes_on()
    case.__name__ = change.__name__
    return case


def hard_links():
    """A file with several names is reported by the name that was used."""
    with site(before=begin) as made:
        os.link(made.root + "/file", made.root + "/d/second")
        made.equal("a second name")
        write(made.root + "/d/second", "written by it")
        check("a write by the second name", until(lambda: made.view()["d/second"][1] == 13, 10), made.view()["d/second"])
        write(made.root + "/file", "and by the first one")
        check("a write by the first name", until(lambda: made.view()["file"][1] == 20, 10), made.view()["file"])
        os.unlink(made.root + "/file")
        write(made.root + "/d/second", "x")
        made.equal("the first name is gone")


CASES = [*map(case_of, CHANGES), hard_links]
