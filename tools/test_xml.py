"""Tests that XML is converted if plistlib reads it correctly, and refused otherwise."""
import base64
import datetime
import plistlib

import plistconv_xml

from testing import OTHER, TEXT, XML, Case

HEAD = (
    b'<?xml version="1.0" encoding="UTF-8"?>\n<!DOCTYPE plist PUBLIC "-//Apple//DTD PLIST 1.0//EN" '
    b'"http://www.apple.com/DTDs/PropertyList-1.0.dtd">\n'
)


def document(value: str) -> bytes:
    """Returns an XML property list."""
    return HEAD + f'<plist version="1.0">{value}</plist>\n'.encode()


class Xml(Case):
    """XML documents that are converted from standard input."""

    def converted(self, octets: bytes) -> bytes:
        """Returns the canonical file."""
        run = self.tool("canonicalise --from-xml -", input=octets)
        self.assertEqual(run.stderr, b"")
        return run.stdout

    def refused(self, octets: bytes, why: str) -> None:
        """Expects every command that reads XML to refuse the document."""
        why = f"refused as XML: {why}"
        self.refuses(f"-: {why}", "canonicalise --from-xml -", input=octets)
        self.refuses(f"-: {why}", "diff - none", input=octets, status=2)
        printed = self.tool("textconv -", input=octets).stdout
        self.assertIn(f"Binary file: {why}".encode(), printed)

    def test_values_are_those_of_plistlib(self):
        value = {
            "text": "é 😀\n",
            "": "",
            "whole": [0, -1, 2**63 - 1, -(2**63), 2**64 - 1],
            "real": [2.5, -1e300, 0.0, 5e-324, float("inf"), float("-inf")],
            "flags": [True, False],
            "data": bytes(range(256)),
            "date": datetime.datetime(2025, 11, 22, 19, 54, 22),
            "empty": [[], {}, b""],
        }
        wanted = self.canonical(plistlib.dumps(value, fmt=plistlib.FMT_BINARY))
        self.assertEqual(self.converted(plistlib.dumps(value)), wanted)

    def test_reals_and_data_at_their_limits_are_read(self):
        most = "1.7976931348623157e308 4.9e-324 +1E+308 infinity -INF nan".split()
        for value in (*most, "0e999", "-0.0e-999", "0e0", "000.000"):
            self.converted(document(f"<real>{value}</real>"))
        pairs = [bytes([one, two]) for one in (0, 255) for two in range(256)]
        for octets in (b"", *pairs, *(pair[1:] for pair in pairs)):
            value = base64.b64encode(octets).decode()
            self.assertIsNotNone(plistconv_xml.LEAVES["data"].fullmatch(value), value)

    def test_spellings_of_one_value_are_equal(self):
        wanted = self.canonical(b"{ a = (b, <0001>); }")
        value = "<dict><key>a</key><array><string>b</string><data>AAE=</data></array></dict>"
        spelled = (
            "<dict>\n<key>&#97;</key><!-- c --><array>\n<string><![CDATA[b]]></string>"
            "<data>\n A A\tE = </data></array></dict>"
        )
        plain = f"<plist>{value}</plist>"
        for octets in (
            document(value),
            document(spelled),
            b"<!-- first -->" + plain.encode(),
            plain.encode(),
            f'<?xml version="1.0"?>{plain}'.encode("utf-16"),
        ):
            self.assertEqual(self.converted(octets), wanted, octets)
        latin = b'<?xml version="1.0" encoding="ISO-8859-1"?><plist><string>\xe9</string></plist>'
        self.assertEqual(self.converted(latin), self.canonical('"é"'.encode()))

    def test_what_plistlib_passes_over_is_refused(self):
        for value, why in (
            ("<data>!!!</data>", "line 3: this is no <data>: '!!!'"),
            ("<data>AAE</data>", "line 3: this is no <data>"),
            ("<data>AAF=</data>", "line 3: this is no <data>: 'AAF='"),
            ("<data>AAAAAB==</data>", "line 3: this is no <data>: 'AAAAAB=='"),
            ("<string>a</string><string>b</string>", "line 3: a second value"),
            ("", "line 3: no value"),
            (
                "<dict><key>a</key><foo/><string>b</string></dict>",
                "line 3: there is no element <foo>",
            ),
            ("<string>a<b/>c</string>", "line 3: there is no element <b>"),
            ("<string>a<true/>c</string>", "line 3: <true> in <string>"),
            ("<array>junk<true/></array>", "line 3: text outside of a value: 'junk'"),
            ("<dict><key></key></dict>", "line 3: a key without a value"),
            ("<dict><key></key><key>a</key><true/></dict>", "line 3: <key> in place of a value"),
            ("<dict><true/></dict>", "line 3: <true> in place of a key"),
            ("<array><key>a</key></array>", "line 3: <key> in place of a value"),
            ("<dict><key>a</key><true/><key>a</key><true/></dict>", "the key 'a' is there twice"),
            ("<true>false</true>", "line 3: this is no <true>: 'false'"),
            ("<integer>1_000</integer>", "line 3: this is no <integer>"),
            ("<integer>1.5</integer>", "line 3: this is no <integer>"),
            ("<integer>٣</integer>", "line 3: this is no <integer>"),
            ("<integer/>", "line 3: this is no <integer>"),
            ("<integer>99999999999999999999</integer>", "plistlib: OverflowError"),
            ("<real>1_0.5</real>", "line 3: this is no <real>"),
            ("<real>1e400</real>", "line 3: a <real> out of range: '1e400'"),
            ("<real> -2E309 </real>", "line 3: a <real> out of range: ' -2E309 '"),
            ("<real>1e-400</real>", "line 3: a <real> out of range: '1e-400'"),
            ("<real>.03e-999</real>", "line 3: a <real> out of range"),
            ("<date>2025-11-22T19:54:22Z and more</date>", "line 3: this is no <date>"),
            ("<date>2025-13-22T19:54:22Z</date>", "plistlib: ValueError"),
            ("<string>&none;</string>", "line 3: an entity: none"),
            (
                "<array><real>0</real><real>-0.0</real></array>",
                "plistlib does not write what it has read",
            ),
            (
                "<dict><key>CF$UID</key><integer>1</integer></dict>",
                "line 3: the key CF$UID, a UID of a keyed archive",
            ),
            ("<plist><true/></plist>", "line 3: <plist> in <plist>"),
            ("<string>\x01</string>", "not well-formed (invalid token): line 3"),
            ("<array>" * 600 + "</array>" * 600, "line 3: more than 512 levels"),
        ):
            self.refused(document(value), why)
        entity = b'<!DOCTYPE plist [<!ENTITY a "b">]><plist><string>&a;</string></plist>'
        encoded = b'<?xml version="1.0" encoding="none"?><plist><true/></plist>'
        self.refused(entity, "line 1: an entity: a")
        self.refused(encoded, "unknown encoding")
        self.refused(b"<!-- --><html/>", "line 1: there is no element <html>")
        self.refused(XML[:-9], "no element found")

    def test_levels_up_to_the_limit_are_read(self):
        octets = document("<array>" * 512 + "</array>" * 512)
        self.assertEqual(self.converted(octets), self.canonical(b"(" * 512 + b")" * 512))
        octets = document("<array>" * 513 + "</array>" * 513)
        self.refuses("-: refused 16 TooDeep", "canonicalise --from-xml -", input=octets)

    def test_other_files_are_converted_with_from_xml_too(self):
        self.assertEqual(self.converted(TEXT), self.canonical(TEXT))
        self.assertEqual(self.converted(self.canonical(OTHER)), self.canonical(OTHER))
