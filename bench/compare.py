#!/usr/bin/env python3
"""Times propedit and propfilter, and other programs that read or edit the same files.

    bench/compare.py PROPEDIT PROPFILTER [MB]

MB, 100 if omitted, is the size of the large file. What isn't installed is skipped: git, sed, crudini, javaproperties (a module of
/usr/bin/python3), java with javac. Of each command it prints the least wall time and the least processor time of its runs, and
the most memory of one. They read or set one key, the last one of the file, or read all pairs.
"""
import os
import pathlib
import shutil
import subprocess
import sys
import tempfile
import time

SMALL = "# the web server\nserver.host = example.org\nport = 80\n"
INI = "[web]\n\tserver = example.org\n\tport = 80\n"
JAVA = """
import java.io.*;
import java.nio.file.*;
import java.util.*;

public class Compared {
    public static void main(String[] args) throws Exception {
        if (args[0].equals("load")) {
            byte[] bytes = Files.readAllBytes(Path.of(args[1]));
            double best = 1e9;
            for (int i = 0; i < 8; i++) {
                long start = System.nanoTime();
                new Properties().load(new ByteArrayInputStream(bytes));
                best = Math.min(best, (System.nanoTime() - start) / 1e9);
            }
            System.out.printf("%.0f MB/s%n", bytes.length / best / 1e6);
            return;
        }
        Properties all = new Properties();
        try (InputStream in = new BufferedInputStream(new FileInputStream(args[1]))) {
            all.load(in);
        }
        all.setProperty(args[2], args[3]);
        try (OutputStream out = new BufferedOutputStream(new FileOutputStream(args[1]))) {
            all.store(out, null);
        }
    }
}
"""
PYTHON = """
import javaproperties, sys
with open(sys.argv[1], encoding="utf8") as file:
    all = javaproperties.PropertiesFile.load(file)
all[sys.argv[2]] = sys.argv[3]
with open(sys.argv[1], "w", encoding="utf8") as file:
    all.dump(file)
"""


def measured(words, runs, stdin=None, fresh=None):
    """(least wall time, least processor time) of some runs. Before each, a file is made anew: (its name, that of its source)."""
    wall, processor = 1e9, 1e9
    for _ in range(runs):
        if fresh:
            shutil.copyfile(fresh[1], fresh[0])
        with open(stdin or os.devnull, "rb") as source:
            start = time.perf_counter()
            child = subprocess.Popen([str(word) for word in words], stdin=source, stdout=subprocess.DEVNULL)
            _, status, usage = os.wait4(child.pid, 0)
            took = time.perf_counter() - start
        if os.waitstatus_to_exitcode(status):
            sys.exit(f"bench/compare.py: {words} ended with {os.waitstatus_to_exitcode(status)}")
        wall, processor = min(wall, took), min(processor, usage.ru_utime + usage.ru_stime)
    return wall, processor


def memory(words, stdin=None, fresh=None):
    """The most memory that a run has, in MB, by GNU time: what a child of this program has begins with that of Python."""
    if not os.path.exists("/usr/bin/time"):
        return "no GNU time"
    if fresh:
        shutil.copyfile(fresh[1], fresh[0])
    with open(stdin or os.devnull, "rb") as source:
        command = ["/usr/bin/time", "-o", "said", "-f", "%M", *(str(word) for word in words)]
        subprocess.run(command, stdin=source, stdout=subprocess.DEVNULL, check=True)
    return f"{int(pathlib.Path('said').read_text()) / 1000:.1f} MB"


def show(what, words, runs, stdin=None, scale=1, fresh=None):
    wall, processor = measured(words, runs, stdin, fresh)
    unit = "ms" if scale == 1000 else "s"
    figures = f"{wall * scale:9.2f} {unit} wall {processor * scale:9.2f} {unit} cpu"
    print(f"  {what:28} {figures} {memory(words, stdin, fresh):>12}", flush=True)


def has(name):
    return shutil.which(name) is not None


def main():
    if len(sys.argv) not in (3, 4):
        sys.exit(__doc__)
    propedit, propfilter = (pathlib.Path(word).resolve() for word in sys.argv[1:3])
    size = int(sys.argv[3]) if len(sys.argv) == 4 else 100
    room = pathlib.Path(tempfile.mkdtemp())
    try:
        os.chdir(room)
        has_module = subprocess.run(["/usr/bin/python3", "-c", "import javaproperties"], capture_output=True).returncode == 0
        pathlib.Path("Compared.java").write_text(JAVA)
        pathlib.Path("edit_module.py").write_text(PYTHON)
        has_java = has("java") and has("javac") and subprocess.run(["javac", "Compared.java"]).returncode == 0
        module = ["/usr/bin/python3", "edit_module.py"]

        print("one key of a file of three lines")
        for name, text in (("small", SMALL), ("ini", INI)):
            pathlib.Path(name).write_text(text)
        show("true", ["true"], 1000, scale=1000)
        show("propedit get", [propedit, "get", "-f", "small", "port"], 1000, scale=1000)
        edited = ("edited", "small")
        show("propedit set -i", [propedit, "set", "-i", "edited", "port", "81"], 300, scale=1000, fresh=edited)
        show("sed -n", ["sed", "-n", "s/^port = //p", "small"], 1000, scale=1000)
        if has("git"):
            show("git config", ["git", "config", "-f", "ini", "web.port"], 1000, scale=1000)
        if has("crudini"):
            show("crudini --get", ["crudini", "--get", "small", "", "port"], 20, scale=1000)
        if has_module:
            show("javaproperties, set", [*module, "edited", "port", "81"], 20, scale=1000, fresh=edited)
        if has_java:
            java = ["java", "-cp", ".", "Compared", "set", "edited"]
            show("java, load and store", [*java, "port", "81"], 20, scale=1000, fresh=edited)

        print("one key of a file of 30,000 pairs")
        text = "".join(f"some.key.{i:05}=a value of pair {i}\n" for i in range(30000))
        pathlib.Path("medium").write_text(text)

        def medium(what, words, runs):
            show(what, words, runs, scale=1000, fresh=("edited", "medium"))

        print(f"  ({len(text) / 1e6:.1f} MB)")
        medium("propedit set -i", [propedit, "set", "-i", "edited", "some.key.29999", "x"], 50)
        medium("sed -i", ["sed", "-i", "s/^some\\.key\\.29999=.*/some.key.29999=x/", "edited"], 50)
        if has("crudini"):
            medium("crudini --set", ["crudini", "--set", "edited", "", "some.key.29999", "x"], 3)
        if has_module:
            medium("javaproperties, set", [*module, "edited", "some.key.29999", "x"], 3)
        if has_java:
            medium("java, load and store", [*java, "some.key.29999", "x"], 10)

        count = size * 10**6 // 35
        with open("large", "w") as file:
            file.writelines(f"some.key.{i:07}=a value of a pair\n" for i in range(count))
        last = f"some.key.{count - 1:07}"
        print(f"a file of {count:,} pairs, {os.path.getsize('large') / 1e6:.0f} MB")
        show("cat", ["cat", "large"], 5)
        show("propedit get", [propedit, "get", "-f", "large", last], 5)
        show("grep", ["grep", "-m1", f"^{last}=", "large"], 5)
        show("propedit set", [propedit, "set", "-f", "large", last, "x"], 5)
        show("sed", ["sed", f"s/^{last}=.*/{last}=x/", "large"], 5)
        show("propedit set -i", [propedit, "set", "-i", "edited", last, "x"], 3, fresh=("edited", "large"))
        show("sed -i", ["sed", "-i", f"s/^{last}=.*/{last}=x/", "edited"], 3, fresh=("edited", "large"))
        show("propedit list", [propedit, "list", "-f", "large"], 3)
        show("propedit check", [propedit, "check", "large"], 3)
        show("propfilter utf-8", [propfilter, "utf-8"], 5, stdin="large")
        if has_java:
            ran = subprocess.run(["java", "-Xmx4g", "-cp", ".", "Compared", "load", "large"], capture_output=True, text=True)
            print("  Properties.load, from memory, warm:", ran.stdout.strip() or ran.stderr.strip()[-200:])
    finally:
        os.chdir("/")
        shutil.rmtree(room)


if __name__ == "__main__":
    main()
