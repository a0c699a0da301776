"""Makes OpenStep texts of any size: project files like those of Xcode, and strings files."""
import random

LANGUAGES = {"m": "sourcecode.c.objc", "swift": "sourcecode.swift", "h": "sourcecode.c.h"}

SECTIONS = {
    "PBXBuildFile": """\
\t\t{id} /* {title} in Sources */ = {{isa = PBXBuildFile; fileRef = {file} /* {title} */; }};
""",
    "PBXFileReference": """\
\t\t{id} /* {title} */ = {{isa = PBXFileReference; fileEncoding = 4; \
lastKnownFileType = {language}; path = {path}; sourceTree = "<group>"; }};
""",
    "PBXGroup": """\
\t\t{id} /* {name} */ = {{
\t\t\tisa = PBXGroup;
\t\t\tchildren = (
{files}\t\t\t);
\t\t\tpath = {name};
\t\t\tsourceTree = "<group>";
\t\t}};
""",
    "PBXShellScriptBuildPhase": """\
\t\t{id} /* Check {name} */ = {{
\t\t\tisa = PBXShellScriptBuildPhase;
\t\t\tbuildActionMask = 2147483647;
\t\t\tfiles = (
\t\t\t);
\t\t\tinputPaths = (
\t\t\t\t"$(SRCROOT)/{name}/list",
\t\t\t);
\t\t\tshellPath = /bin/sh;
\t\t\tshellScript = "set -e\\necho \\"{name}: $CONFIGURATION\\"\\nexit 0\\n";
\t\t}};
""",
    "PBXSourcesBuildPhase": """\
\t\t{id} /* Sources */ = {{
\t\t\tisa = PBXSourcesBuildPhase;
\t\t\tbuildActionMask = 2147483647;
\t\t\tfiles = (
{builds}\t\t\t);
\t\t\trunOnlyForDeploymentPostprocessing = 0;
\t\t}};
""",
    "XCBuildConfiguration": """\
\t\t{id} /* {kind} */ = {{
\t\t\tisa = XCBuildConfiguration;
\t\t\tbuildSettings = {{
\t\t\t\tALWAYS_SEARCH_USER_PATHS = NO;
\t\t\t\tCLANG_CXX_LANGUAGE_STANDARD = "gnu++17";
\t\t\t\tHEADER_SEARCH_PATHS = (
\t\t\t\t\t"$(inherited)",
\t\t\t\t\t"$(SRCROOT)/{name}/include",
\t\t\t\t);
\t\t\t\tPRODUCT_BUNDLE_IDENTIFIER = "org.example.{name}.$(PRODUCT_NAME:rfc1034identifier)";
\t\t\t}};
\t\t\tname = {kind};
\t\t}};
""",
}


def identifier(chance):
    return f"{chance.getrandbits(96):024X}"


def module(number, chance):
    """Returns the objects of eight source files in their sections, with group,
    phases and settings."""
    name = f"Module{number}"
    objects, files, builds = [], "", ""

    def one(section, **words):
        words = {"id": identifier(chance), "name": name, **words}
        objects.append((section, SECTIONS[section].format(**words)))

    for index in range(8):
        file, build = identifier(chance), identifier(chance)
        kind = chance.choice(tuple(LANGUAGES))
        title = f"{chance.choice(('View', 'Record', 'Reader'))}{number}x{index}.{kind}"
        path = f'"Public Headers/{title}"' if kind == "h" else title
        one("PBXBuildFile", id=build, file=file, title=title)
        one("PBXFileReference", id=file, title=title, language=LANGUAGES[kind], path=path)
        files += f"\t\t\t\t{file} /* {title} */,\n"
        builds += f"\t\t\t\t{build} /* {title} in Sources */,\n"
    one("PBXGroup", files=files)
    one("PBXShellScriptBuildPhase")
    one("PBXSourcesBuildPhase", builds=builds)
    for kind in ("Debug", "Release"):
        one("XCBuildConfiguration", kind=kind)
    return objects


def project(size):
    """Returns a project file of `size` bytes, or a few thousand more."""
    chance = random.Random(11)
    sections = {name: [] for name in SECTIONS}
    number, length = 0, 0
    while length < size:
        for section, text in module(number, chance):
            sections[section].append(text)
            length += len(text)
        number += 1
    parts = [
        "// !$*UTF8*$!\n{\n\tarchiveVersion = 1;\n\tclasses = {\n\t};\n",
        "\tobjectVersion = 46;\n\tobjects = {\n",
    ]
    for name, objects in sections.items():
        text = "".join(sorted(objects))
        parts.append(f"\n/* Begin {name} section */\n{text}/* End {name} section */\n")
    parts.append(f"\t}};\n\trootObject = {identifier(chance)} /* Project object */;\n}}\n")
    return "".join(parts).encode()


VALUES = (
    'Save the changes in \\"%@\\"?',
    "%d of %d records were read.\\nGo on?",
    "Open the folder",
    "Cancel",
    "Änderungen in „%@“ sichern?",
    "Der Ordner ist nicht größer als %lld Oktette.",
    "Сохранить изменения?",
    "“%@”への変更を保存しますか？",
    "フォルダを開く",
    "Done 🎉 \\U2713",
)


def strings(size, form):
    """Returns a strings file of `size` bytes, or a few hundred more; UTF-16 has
    a byte order mark."""
    chance = random.Random(13)
    parts, length, number = [b"" if form == "utf-8" else "\ufeff".encode(form)], 0, 0
    while length < size:
        window = chance.choice(("main", "settings", "export"))
        part = chance.choice(("title", "button", "note"))
        value = f"{chance.choice(VALUES)} ({chance.randrange(10_000)})"
        line = f'"{window}.{part}.{number}" = "{value}";\n'
        if number % 8 == 0:
            line = f"\n/* The texts of window {number // 8}, as they are shown. */\n{line}"
        elif number % 8 == 5:
            line = f"// Shown at the right end only.\n{line}"
        parts.append(line.encode(form))
        length += len(parts[-1])
        number += 1
    return b"".join(parts)
