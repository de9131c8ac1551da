"""Worked iXML documents, after the examples of the iXML specification 2.10, and bytes that are no document."""

# As recorders of Sound Devices write it: a line for each element, with a note of SPEED and others that aren't read.
INDENTED = b"""<?xml version="1.0" encoding="UTF-8"?>
<BWFXML>
  <IXML_VERSION>2.10</IXML_VERSION>
  <PROJECT>Heron Marsh</PROJECT>
  <SCENE>32A</SCENE>
  <TAKE>5</TAKE>
  <TAPE>24Y05M01</TAPE>
  <CIRCLED>TRUE</CIRCLED>
  <UBITS>$24050100</UBITS>
  <NOTE>boom &amp; plant mic, plane at the end</NOTE>
  <SPEED>
    <NOTE>camera at 25</NOTE>
    <FILE_SAMPLE_RATE>48000</FILE_SAMPLE_RATE>
  </SPEED>
  <TRACK_LIST>
    <TRACK_COUNT>2</TRACK_COUNT>
    <TRACK>
      <CHANNEL_INDEX>3</CHANNEL_INDEX>
      <INTERLEAVE_INDEX>1</INTERLEAVE_INDEX>
      <NAME>Mid</NAME>
      <FUNCTION>M-MID_SIDE</FUNCTION>
    </TRACK>
    <TRACK>
      <CHANNEL_INDEX>4</CHANNEL_INDEX>
      <INTERLEAVE_INDEX>2</INTERLEAVE_INDEX>
      <NAME>Side</NAME>
      <FUNCTION>S-MID_SIDE</FUNCTION>
    </TRACK>
  </TRACK_LIST>
</BWFXML>
"""
INDENTED_LINES = (
    "project Heron Marsh",
    "scene 32A",
    "take 5",
    "tape 24Y05M01",
    "ixml-note boom & plant mic, plane at the end",
    "track 1 Mid",
    "function 1 M-MID_SIDE",
    "channel 1 3",
    "track 2 Side",
    "function 2 S-MID_SIDE",
    "channel 2 4",
)

# As recorders of Zoom write it: one line, empty elements, a track without a function, and zero bytes after it.
PADDED = (
    b'<?xml version="1.0" encoding="UTF-8"?><BWFXML><IXML_VERSION>1.5</IXML_VERSION><PROJECT>240501</PROJECT>'
    b"<SCENE>MARSH</SCENE><TAKE>002</TAKE><TAPE></TAPE><NOTE/><TRACK_LIST><TRACK_COUNT>1</TRACK_COUNT><TRACK>"
    b"<CHANNEL_INDEX>1</CHANNEL_INDEX><INTERLEAVE_INDEX>1</INTERLEAVE_INDEX><NAME>TrL</NAME></TRACK></TRACK_LIST></BWFXML>"
) + bytes(600)
PADDED_LINES = ("project 240501", "scene MARSH", "take 002", "track 1 TrL", "channel 1 1")


def noted(text):
    """A document with this content of NOTE."""
    return b"<BWFXML><NOTE>" + text + b"</NOTE></BWFXML>"


def tracks(*texts):
    """A document with tracks of this content."""
    return b"<BWFXML><TRACK_LIST>" + b"".join(b"<TRACK>" + it + b"</TRACK>" for it in texts) + b"</TRACK_LIST></BWFXML>"


DOCUMENTS = (
    ("as Sound Devices", INDENTED),
    ("as Zoom", PADDED),
    ("the five entities", noted(b"&lt;&gt;&amp;&quot;&apos;")),
    ("references by number", noted(b"&#65;&#x42;&#x1F30a;&#228;")),
    ("CDATA sections", noted(b"a<![CDATA[<b>&amp;]]]]><![CDATA[>]]>c")),
    ("comments and instructions", b"<!-- <a> --><?a ?>" + noted(b"a<!-- - -->b<?c <d>?>") + b"<!-- --> <?e?>\n"),
    ("UTF-8", noted("Bäche \U0001f30a".encode())),
    ("a byte order mark", b"\xef\xbb\xbf" + noted(b"a")),
    ("white space around texts", noted(b" \t\n a  b \n")),
    ("attributes", b"<BWFXML a='>' b = \"'/>\"\n><NOTE c='' >a</NOTE\t></BWFXML >"),
    ("texts of other paths", b"<BWFXML><USER><NOTE>a</NOTE></USER><note>b</note><NOTES>c</NOTES></BWFXML>"),
    ("another root", b"<BWF><NOTE>a</NOTE></BWF>"),
    ("a prefix of a path", b"<BWFXML><TRACK_LIST><TRACK><NAM>a</NAM><NAMES>b</NAMES></TRACK></TRACK_LIST></BWFXML>"),
    ("several notes", b"<BWFXML><NOTE>a</NOTE><NOTE>b</NOTE></BWFXML>"),
    ("a track without indices", tracks(b"<NAME>a</NAME>")),
    ("a track without an interleave index", tracks(b"<NAME>a</NAME><CHANNEL_INDEX>7</CHANNEL_INDEX>")),
    ("a track with indices after its name", tracks(b"<NAME>a</NAME><INTERLEAVE_INDEX>4294967295</INTERLEAVE_INDEX>")),
    ("an index past 32 bits", tracks(b"<INTERLEAVE_INDEX>4294967296</INTERLEAVE_INDEX><NAME>a</NAME>")),
    ("an index with a sign", tracks(b"<INTERLEAVE_INDEX>+1</INTERLEAVE_INDEX><NAME>a</NAME>")),
    ("tracks that share nothing", tracks(b"<NAME>a</NAME><FUNCTION>b</FUNCTION>", b"", b"<NAME>c</NAME>")),
    ("deep nesting", b"<a>" * 9_000 + b"</a>" * 9_000),
    ("a document that zero bytes follow for longer than is read", noted(b"a") + bytes(70_000)),
)
NO_DOCUMENTS = (
    ("nothing", b""),
    ("text alone", b"a"),
    ("an element that isn't ended", b"<BWFXML><NOTE>a</NOTE>"),
    ("an end tag of another name", b"<BWFXML><NOTE>a</SCENE></BWFXML>"),
    ("end tags in the wrong order", b"<BWFXML><NOTE>a</BWFXML></NOTE>"),
    ("two roots", b"<BWFXML/><BWFXML/>"),
    ("text after the root", b"<BWFXML/>a"),
    ("a reference outside the root", b"<BWFXML/>&#32;"),
    ("a CDATA section outside the root", b"<BWFXML/><![CDATA[]]>"),
    ("an unknown entity", noted(b"&nbsp;")),
    ("a reference that isn't ended", noted(b"a & b")),
    ("a reference to no character", noted(b"&#x110000;")),
    ("a reference to a surrogate", noted(b"&#xD800;")),
    ("a reference without digits", noted(b"&#;")),
    ("a less-than sign in a text", noted(b"1 < 2")),
    ("the end of a CDATA section in a text", noted(b"]]>")),
    ("a CDATA section that isn't ended", noted(b"<![CDATA[")),
    ("two hyphens in a comment", noted(b"<!-- -- -->")),
    ("a comment that isn't ended", noted(b"<!-- ")),
    ("an attribute without quotes", b"<BWFXML a=b/>"),
    ("an attribute without a value", b"<BWFXML a/>"),
    ("attributes without white space", b"<BWFXML a='b'c='d'/>"),
    ("a less-than sign in an attribute", b"<BWFXML a='<'/>"),
    ("a control character", noted(b"\x01")),
    ("white space before a name", b"< BWFXML/>"),
    ("a name that begins with a digit", b"<BWFXML><1/></BWFXML>"),
)
UNREAD = (
    ("UTF-16", "UTF-16", b"\xff\xfe" + noted(b"a").decode().encode("utf-16-le")),
    ("UTF-16 without a byte order mark", "UTF-16", noted(b"a").decode().encode("utf-16-be")),
    ("ISO 8859-1", "not UTF-8", b'<?xml version="1.0" encoding="ISO-8859-1"?>' + noted(b"B\xe4che")),
    ("a document type declaration", "document type declaration", b"<!DOCTYPE BWFXML>" + noted(b"a")),
)
CUT = noted(b"a") + b"<!-- " + b"-" * 70_000
