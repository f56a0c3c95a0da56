#!/usr/bin/env python3
"""Runs what README says of other programs: what they do with a properties file, and in which encoding they read it.

    tests/try_peers.py [JARS]    the directory of Debian's jars, /usr/share/java if omitted

Packages of Debian that it uses: crudini, python3-javaproperties, jq, yq, ant, libtomcat9-java, liblog4j2-java,
libmaven-filtering-java, libspring-core-java and a JDK. It skips, and names, what isn't there.
"""
import os
import pathlib
import shutil
import subprocess
import sys
import tempfile

JARS = pathlib.Path(sys.argv[1] if len(sys.argv) > 1 else "/usr/share/java").resolve()
LATIN, UTF = "caf\xe9".encode("latin-1"), "caf\xe9".encode()
PYTHON = """
import javaproperties, sys
with open(sys.argv[1]) as file:
    pairs = javaproperties.PropertiesFile.load(file)
pairs[sys.argv[2]] = sys.argv[3]
with open(sys.argv[1], "w") as file:
    pairs.dump(file)
"""
# Parts of Java programs, which read the key `k` and print its value in UTF-8.
SHOWN = 'System.out.write((%s + "\\n").getBytes("utf-8")); System.out.flush();'
LOAD = 'var p = new java.util.Properties(); p.load(new java.io.FileInputStream("f.properties"));'
BUNDLE = 'java.util.ResourceBundle.getBundle("f").getString("k")'
FILTER = 'org.apache.maven.shared.filtering.PropertyUtils.loadPropertyFile(new java.io.File("f.properties"), null).getProperty("k")'
SPRING = (
    "org.springframework.core.io.support.PropertiesLoaderUtils.loadProperties("
    'new org.springframework.core.io.FileSystemResource("f.properties")).getProperty("k")'
)
TOMCAT = 'org.apache.catalina.startup.CatalinaProperties.getProperty("k")'
LOG4J = 'org.apache.logging.log4j.LogManager.getLogger("a").error("x");'
LOG4J_FILE = b"""
appender.c.type=Console
appender.c.name=c
appender.c.layout.type=PatternLayout
appender.c.layout.charset=UTF-8
appender.c.layout.pattern=%s%%n
rootLogger.appenderRef.c.ref=c
"""
ANT_FILE = '<project default="t"><property file="f.properties"/><target name="t"><echo file="o" encoding="utf-8">${k}</echo></target></project>'


def ran(command, **files):
    """What a command prints in a new directory with these files, and what it leaves in the file `f.properties`."""
    with tempfile.TemporaryDirectory() as room:
        for name, data in files.items():
            file = pathlib.Path(room, name.replace("__", "/").replace("_", "."))
            file.parent.mkdir(exist_ok=True)
            file.write_bytes(data if isinstance(data, bytes) else data.encode())
        environment = os.environ | {"LC_ALL": "C.UTF-8"}
        done = subprocess.run(command, cwd=room, env=environment, capture_output=True, stdin=subprocess.DEVNULL, check=False)
        left = pathlib.Path(room, "f.properties")
        return done.stdout + (pathlib.Path(room, "o").read_bytes() if pathlib.Path(room, "o").exists() else b""), left.read_bytes()


def java(body, data=b"", jars=(), words=(), **files):
    program = "public class P { public static void main(String[] a) throws Exception { %s } }" % body
    command = ["java", *words, "-cp", ":".join([".", *(str(jar) for jar in jars)]), "P.java"]
    return ran(command, P_java=program, f_properties=data, **files)


def jar_files(*names):
    return [JARS / f"{name}.jar" for name in names]


def reads_latin_1(read):
    """Whether a program reads ISO 8859-1: UTF-8 gives two characters for one."""
    return read(LATIN).strip() == UTF and read(UTF).strip() == "cafÃ©".encode()


def claims():
    """(name, what it needs, whether the claim holds)"""
    sed = ["sed", "-i", r"s/^login.user *=.*/login.user=jo/", "f.properties"]
    yield "sed, an escaped key", ["sed"], lambda: ran(sed, f_properties="login\\.user = a\n")[1] == b"login\\.user = a\n"
    two = "login.user = a\\\n  b\n"
    yield "sed, a value over two lines", ["sed"], lambda: ran(sed, f_properties=two)[1] == b"login.user=jo\n  b\n"
    merge = ["sh", "-c", "crudini --merge f.properties < m"]
    yield "crudini --merge", ["crudini"], lambda: b"url http = //x" in ran(merge, f_properties="", m="url http://x\n")[1]
    setting = ["crudini", "--set", "f.properties", "", "k", "v"]
    yield "crudini --set", ["crudini"], lambda: ran(setting, f_properties="# a\n# b\n")[1].startswith(b"k")
    module = ["/usr/bin/python3", "-c", PYTHON, "f.properties", "server.port", "8080"]
    layout = lambda: ran(module, f_properties="server.port    = 80\n")[1] == b"server.port=8080\n"
    yield "javaproperties", ["/usr/lib/python3/dist-packages/javaproperties"], layout
    yield "jq", ["jq"], lambda: ran(["jq", ".", "f.properties"], f_properties="a = b\n")[0] == b""
    yield "yq", ["yq", "jq"], lambda: ran(["yq", ".", "f.properties"], f_properties="a = b\nc = d\n")[0] == b'"a = b c = d"\n'
    stored = LOAD + 'p.setProperty("k", "2"); p.store(new java.io.FileOutputStream("f.properties"), null);'
    kept = lambda: java(stored, b"# a\nk   = 1\n")[1].startswith(b"#") and java(stored, b"# a\nk   = 1\n")[1].endswith(b"\nk=2\n")
    yield "Java's store", ["java"], kept
    yield "Properties.load", ["java"], lambda: reads_latin_1(lambda k: java(LOAD + SHOWN % 'p.getProperty("k")', b"k=" + k)[0])
    yield "ResourceBundle", ["java"], lambda: java(SHOWN % BUNDLE, b"k=" + UTF)[0].strip() == UTF
    yield "Ant", ["ant"], lambda: reads_latin_1(lambda k: ran(["ant", "-q"], build_xml=ANT_FILE, f_properties=b"k=" + k)[0].split(b"\n")[-1])
    catalina = sorted(JARS.glob("tomcat9-*.jar")) or [JARS / "tomcat9-catalina.jar"]
    tomcat = lambda k: java(SHOWN % TOMCAT, jars=catalina, words=["-Dcatalina.base=."], conf__catalina_properties=b"k=" + k)[0]
    yield "Tomcat", ["java", *catalina], lambda: reads_latin_1(tomcat)
    filters = [*jar_files("maven-filtering", "maven-shared-utils", "slf4j-api", "slf4j-nop", "plexus-utils2"), *JARS.glob("commons-io.jar")]
    yield "Maven filters", ["java", *filters], lambda: reads_latin_1(lambda k: java(SHOWN % FILTER, b"k=" + k, filters)[0])
    spring = jar_files("spring3-core", "jcl-over-slf4j", "slf4j-api", "slf4j-nop")
    yield "Spring's PropertiesLoaderUtils", ["java", *spring], lambda: reads_latin_1(lambda k: java(SHOWN % SPRING, b"k=" + k, spring)[0])
    log4j = jar_files("log4j-api", "log4j-core")
    logged = lambda k: java(LOG4J, jars=log4j, words=["-Dlog4j2.configurationFile=f.properties"], data=LOG4J_FILE % k)[0]
    yield "Log4j 2", ["java", *log4j], lambda: reads_latin_1(logged)


def is_there(it):
    return pathlib.Path(it).exists() if "/" in str(it) else shutil.which(it)


def main():
    right, wrong, skipped = 0, [], []
    for name, needed, holds in claims():
        if not all(is_there(it) for it in needed):
            skipped.append(name)
        elif holds():
            right += 1
        else:
            wrong.append(name)
    print("".join(f"{name}: README is wrong\n" for name in wrong), end="")
    print(f"{right} of {right + len(wrong)} claims of README hold" + (f"; skipped: {', '.join(skipped)}" if skipped else ""))
    return 1 if wrong else 0


if __name__ == "__main__":
    sys.exit(main())
