#!/usr/bin/env python3
"""The messages that crates/verdict_run reads, and the verdict on each: writes its stdin and its stdout.

The verdicts stand in this file. They were written down from the sentences of document 01 and then compared, on the written
stdin, with the reader of the reference in plain Rust (rust/reference/src/text.rs), which shares nothing with the program and
reads messages of any length: the two agree on every message, one slip of the writer put right. None was taken from the program. Those on
topology were written down from the sentences of document 02 alone.

Input, for each message: a line of 48 bytes (five digits, the number of its bytes; a space; what it shows), its bytes, a line end.
Output, for each message: its number, what it shows, the verdict. What it shows begins with the place in the message.
"""
import os
import sys

sys.dont_write_bytecode = True
import command

GOOD, F400, F406 = "well-formed", "400", "406"
CASES = []


def f403(identifier):
    return "403 of %d" % identifier


def shown(part):
    names = {0x0A: "\\n", 0x0D: "\\r", 0x09: "\\t"}
    text = "".join(names.get(b) or (chr(b) if 0x20 <= b <= 0x7E else "\\x%02x" % b) for b in part)
    return text[:-1] + "\\x20" if text.endswith(" ") else text


def put(verdict, place, *parts):
    """Each part, in its place in a message. A part is bytes, or what it shows and bytes."""
    for part in parts:
        name, part = part if isinstance(part, tuple) else (shown(part), part)
        name = (place.__name__ + " " + name).rstrip()
        assert len(name) <= 41, (len(name), name)
        CASES.append((name, place(part), verdict))


# ---- places in a message

TAIL = b"T=1{C=1{A=$}}"


def message(x):
    return x


def start(x):
    return x + b" [10.0.0.1] " + TAIL


def mId(x):
    return b"!/1 " + x + b" " + TAIL


def after(x):
    """After the mId."""
    return b"!/1 [10.0.0.1]" + x


def trans(x):
    return b"!/1 [10.0.0.1] " + x


def last(x):
    """After the last transaction."""
    return trans(TAIL + x)


def action(x):
    return trans(b"T=1{" + x + b"}")


def inside(x):
    """Between an action's braces."""
    return action(b"C=1{" + x + b"}")


def triples(x):
    """Between the braces of a topology."""
    return inside(b"TP{" + x + b"}")


def term(x):
    return inside(b"A=" + x)


def item(x):
    return inside(b"A=${" + x + b"}")


def value(x):
    return item(b"m=" + x)


def filled(x, b, n=4096):
    """Bytes, then a byte as often as it fits."""
    return x + b * ((n - len(x)) // len(b))


def nested(n, inner=b"m"):
    """Items in n levels of braces; the outermost is the command's."""
    return inside(b"A=$" + b"{m" * (n - 1) + b"{" + inner + b"}" * n)


# ---- the header

put(GOOD, start, b"!/1", b"MEGACO/1", b"Megaco/1", b"mEgAcO/1", b"!/01")
put(F406, start, b"!/0", b"!/00", b"!/2", b"!/02", b"!/10", b"!/99", b"MEGACO/99")
put(F400, start, b"!/100", b"!/001", b"!/", b"!/-1", b"!/1x", b"!/ 1", b"! /1", b"!1", b"/1", b"!!/1", b"MEGAC/1", b"MEGACOS/1", b"MEGACO /1",
    b"MEGACO!/1", b"M/1")
put(F400, start, ("word of 65 bytes", b"M" * 65 + b"/1"))
put(GOOD, start, b" !/1", b"\t!/1", b"\r!/1", b"\n!/1", b"\r\n \t!/1", b";\n!/1", b"; c\r!/1", b"; c\r\n;\td\n!/1", b";;\"{}~\n!/1")
put(F400, start, b"; c !/1", b";", b"\x0b!/1", b"\x0c!/1", b"\x00!/1", b";\x7f\n!/1", b";\x80\n!/1", b";\xff\n!/1", b";\x1f\n!/1", b";\x00\n!/1")
put(F406, message, b"!/2 [10.0.0.1] ", b"!/2 [10.0.0.1] T=0{", b"!/0 gw \x00", b"!/2 gw;\n", b"!/2 gw ;\r;\n ")
put(F400, message, b"!/2 [10.0.0.1]", b"!/2 [10.0.0.1]T=1{}", b"!/2 gw ;", b"!/2 gw ;\n;", b"!/2 gw;\x7f\n", b"!/2 [10.0.0.256] ",
    b"!/2[10.0.0.1] ", b"!/1 gw ", b"!/1 gw", b"!/1 ", b"!/1", b"!/", b"MEGACO")
put(F406, message, ("version 2, then noise", filled(b"!/2 gw ", b"{")))

# ---- the mId

put(GOOD, mId, b"[0.0.0.0]", b"[255.255.255.255]", b"[001.02.3.000]", b"[1.2.3.4]:0", b"[1.2.3.4]:65535", b"[1.2.3.4]:00001", b"<a>", b"<9>",
    b"<a-.9.>", b"<a>:65535", b"gw", b"gw1/2", b"*gw", b"g*_$/")
put(F400, mId, b"[256.0.0.0]", b"[0.256.0.0]", b"[0.0.256.0]", b"[0.0.0.256]", b"[0001.2.3.4]", b"[1.2.3]", b"[1.2.3.4.5]", b"[1.2..4]",
    b"[1.2.3.4", b"1.2.3.4", b"[ 1.2.3.4]", b"[1.2.3.4 ]", b"[::1]", b"[]")
put(F400, mId, b"[1.2.3.4]:65536", b"[1.2.3.4]:99999", b"[1.2.3.4]:000001", b"[1.2.3.4]:", b"[1.2.3.4] :1", b"[1.2.3.4]: 1", b"gw:1")
put(F400, mId, b"<>", b"<-a>", b"<.a>", b"<a_b>", b"<a", b"<a b>", b"<a>:65536", b"<a\xe9>", b"*", b"$", b"**gw", b"1gw", b"gw@x", b"gw-1",
    b"_gw", b"g\x80w")
put(GOOD, mId, ("domain of 64 bytes", b"<" + b"a" * 64 + b">"), ("name of 64 bytes", b"g" * 64), ("name of 64 bytes, *", b"*" + b"g" * 63))
put(F400, mId, ("domain of 65 bytes", b"<" + b"a" * 65 + b">"), ("name of 65 bytes", b"g" * 65), ("name of 65 bytes, *", b"*" + b"g" * 64))
put(GOOD, after, b"\t" + TAIL, b"\r" + TAIL, b"\n" + TAIL, b";c\n" + TAIL, b" ;c\r\n " + TAIL)
put(F400, after, TAIL, b";c " + TAIL, b"," + TAIL, b" ;\x07\n" + TAIL)
put(GOOD, message, b"!/1;c\n<a>;c\r" + TAIL)

# ---- transactions

put(GOOD, trans, TAIL, b"Transaction=1{C=1{A=$}}", b"tRANSACTION=1{C=1{A=$}}", b"t=1{C=1{A=$}}")
put(F400, trans, b"Q=1{}", b"TR=1{C=1{A=$}}", b"Transactions=1{C=1{A=$}}", b"{C=1{A=$}}", b"=1{C=1{A=$}}", b"T{C=1{A=$}}", b"T={C=1{A=$}}",
    b"T=$,{}", b"T=-{C=1{A=$}}", b"T=-1{C=1{A=$}}", b"T==1{}", b"T", b"T=", b"T=1", b"T=1 ", b"T=1}", b"T=1,{}", b"T=1 2{C=1{A=$}}", b"T=1;{}",
    b"T;=1{}")
put(GOOD, trans, b"T=4294967295{C=1{A=$}}", b"T=0000000001{C=1{A=$}}")
put(F400, trans, b"T=4294967296{C=1{A=$}}", b"T=9999999999{C=1{A=$}}", b"T=00000000001{C=1{A=$}}", b"T=00000000000{C=1{A=$}}", b"T=11111111111")
put(f403(0), trans, b"T=0{C=1{A=$}}", b"T=0", b"T=0;", b"T=0x", b"T=0000000000{C=1{A=$}}", b"T=000", TAIL + b"T=0{}")
put(f403(1), trans, b"T=1{}", b"T=1{ }", b"T=1{", b"T=1{;}", b"T=1{{}}", b"T=1{C=5{}}", b"T=1{C=5{S=*", b"T=1{C=1{A=$}", b"T=01{}", b"T=1{,}",
    b"T=1{}T=0{}", b"T=1{\x00")
put(f403(4294967295), trans, b"T=4294967295{}")
put(f403(4294967294), trans, b"T=4294967294{C=1}")
put(f403(2), trans, TAIL + b"T=2{}", TAIL + b"T=2{C=1{A=$};}")
put(GOOD, last, b" ", b"\r\n", b";c\n", TAIL, b" " + TAIL, b";c\r" + TAIL)
put(F400, last, b"}", b",", b"," + TAIL, b";", b";c", b"x", b"T", b"T=2", b"\x00", b"\xff", b"{", b" ;\x7f\n", b"=", b";" + TAIL)
put(GOOD, trans, ("8", TAIL * 8), ("8, a line end", TAIL * 8 + b"\n"))
put(F400, trans, ("9", TAIL * 9), ("9, a space between", (TAIL + b" ") * 9), ("8, then the ninth's fault", TAIL * 8 + b"T=9{}"),
    ("8, then identifier 0", TAIL * 8 + b"T=0"))
put(f403(8), trans, ("8, a fault in the eighth", TAIL * 7 + b"T=8{"))

# ---- actions

put(GOOD, action, b"Context=1{A=$}", b"cONTEXT=1{A=$}", b"c=1{A=$}", b"C=0{A=$}", b"C=4294967295{A=$}", b"C=0000000001{A=$}", b"C=-{A=$}",
    b"C=${A=$}", b"C=*{A=$}", b"C=1{A=$},C=1{A=$}")
put(f403(1), action, b"C=4294967296{A=$}", b"C=00000000001{A=$}", b"C=11111111111{A=$}", b"C=**{A=$}", b"C=-1{A=$}", b"C=$1{A=$}", b"C=1-{A=$}",
    b"C={A=$}", b"C{A=$}", b"C=x{A=$}", b"C=1", b"C=1{", b"C=1}", b"C=1{}", b"C=1{ }", b"C=1{,}", b"C=1{{}}", b"CTX=1{A=$}", b"A=$", b"C=1 2{A=$}",
    b"Contexts=1{A=$}", b"C=1{A=$}{A=$}")
put(f403(1), action, b"C=1{A=$},", b",C=1{A=$}", b"C=1{A=$},,C=1{A=$}", b"C=1{A=$}C=1{A=$}", b"C=1{A=$} C=1{A=$}", b"C=1{A=$},C=1{}",
    b"C=1{A=$},T=2{}", b"C=1{A=$};c", b"C=1{A=$};\x7f\n")
put(GOOD, action, ("16", b",".join([b"C=1{A=$}"] * 16)))
put(f403(1), action, ("17", b",".join([b"C=1{A=$}"] * 17)), ("16 and a comma", b"C=1{A=$}," * 16))

# ---- properties of a context

put(GOOD, inside, b"PR=0", b"PR=15", b"PR=16", b"PR=99999", b"PR=00000", b"Priority=1", b"pRIORITY=1", b"EG", b"Emergency", b"eg", b"PR=1,EG",
    b"EG,PR=1,EG,PR=2", b"PR=1,A=$", b"EG,A=$,S=*", b"PR=1 , EG , A=$", b"PRX=$", b"EGG=$", b"P=$", b"E=$")
put(f403(1), inside, b"PR=000001", b"PR=100000", b"PR=", b"PR", b"PR=x", b"PR=-1", b"PR=1 2", b"PR{}", b"PR=1{}", b"PR=1,", b"PR=1EG",
    b"PR=L/1/1", b"EG=1", b"EG=$", b"EG{}", b"EG{m}", b"EG,", b"EG EG", b"A=$,PR=1", b"A=$,EG", b"PR=1,A=$,EG", b"O-EG", b"W-EG", b"O-PR=1",
    b"W-PR=1", b"O-W-PR=1", b"O-PR=L/1/1", b"EG/1")
put(GOOD, inside, ("200 properties", b",".join([b"PR=1,EG"] * 100)), ("100 properties, then 64 commands", b"EG," * 100 + b",".join([b"A=$"] * 64)))

# ---- topology

put(GOOD, inside, b"TP{a,b,BW}", b"Topology{a,b,BW}", b"tp{a,b,bw}", b"TP {a,b,BW}", b"TP;c\n{ a,b,BW}", b"TP{a,b,BW} ,A=$", b"PR=1,TP{a,b,BW},EG",
    b"TP{a,b,BW},TP{a,b,IS}", b"TPX=$", b"T=$", b"IS=$")
put(f403(1), inside, b"TP", b"TP=1", b"TP=$", b"TP=a,b,BW", b"TP={a,b,BW}", b"TP{a,b,BW}{c,d,BW}", b"O-TP{a,b,BW}", b"W-TP{a,b,BW}", b"O-TP=$",
    b"A=$,TP{a,b,BW}", b"TP{a,b,BW}A=$", b"TP{a,b,BW} EG", b"TP/x{a,b,BW}", b"TP{a,b,BW", b"TP a,b,BW", b"Topologies{a,b,BW}", b"TP{a,b,BW},")
put(GOOD, triples, b"L/1/1,L/1/2,IS", b"a,b,OW", b"a,b,BW", b"a,b,Isolate", b"a,b,oNEWAY", b"a,b,BothWay", b"a,b,IS,c,d,BW", b"*,$,BW", b"$,*,OW",
    b"ROOT,*L/1,OW", b"a,a,IS", b" a , b , IS ", b"a;c\n,b,\tIS;c\r", b"a,b,IS , c,d,OW", b"BW,OW,IS", b"R/1,R/2,ow")
put(f403(1), triples, b"", b" ", b",", b"a", b"a,b", b"a,b,", b"a,b,IN", b"a,b,I", b"a,b,ISO", b"a,b,Bothways", b"a,b,BW,", b",a,b,BW", b"a,,b,BW", b"a,,BW",
    b"a,b,BW,c", b"a,b,BW,c,d", b"a,b,c,BW", b"a b,BW", b"a,b BW", b"a,b,BW c,d,IS", b"a,b,=BW", b"a,b,BW=1", b"a,b,BW{m}", b"BW,a,b", b"1,a,BW",
    b"**,a,BW", b"-,a,BW", b"a,b,\"BW\"", b"a,b,BW/1", b"a,b,*", b"{a,b,BW}", b"a=b,BW", b"a,b,B W", b"a,b,BW;", b"a,b,BW\x00")
put(GOOD, triples, ("a name of 64 bytes", b"L" * 64 + b",b,BW"), ("300", b",".join([b"a,b,BW"] * 300)))
put(f403(1), triples, ("a name of 65 bytes", b"a," + b"L" * 65 + b",BW"), ("a word of 65 bytes", b"a,b," + b"B" * 65), ("300 and a name", b"a,b,BW," * 300 + b"a"))

# ---- commands

put(GOOD, inside, b"Add=$", b"MODIFY=$", b"Foo=$", b"A_1=$", b"O-A=$", b"W-A=$", b"O-W-A=$", b"o-w-a=$", b"O=$", b"W=$", b"O-O=$", b"O-W=$",
    b"A=$,S=*", b"AuditValue=*")
put(f403(1), inside, b"W-O-A=$", b"O-O-A=$", b"W-W-A=$", b"O -A=$", b"O- A=$", b"O-W- A=$", b"X-A=$", b"-A=$", b"O-=$", b"O-", b"OW-A=$", b"O-W",
    b"1A=$", b"_A=$", b"A/B=$", b"A", b"A=", b"A $", b"=$", b"A==$", b"A-B=$", b"A\xff=$", b"\x00A=$", b"A=$,", b",A=$", b"A=$,,A=$", b"A=$ A=$",
    b"A=$=1", b"A:=$")
put(GOOD, inside, ("word of 64 bytes", b"a" * 64 + b"=$"), ("O-W-, word of 64 bytes", b"O-W-" + b"a" * 64 + b"=$"), ("64", b",".join([b"A=$"] * 64)))
put(f403(1), inside, ("word of 65 bytes", b"a" * 65 + b"=$"), ("65", b",".join([b"A=$"] * 65)), ("64 and a comma", b"A=$," * 64))

# ---- terminations

put(GOOD, term, b"*", b"$", b"L/1/1", b"l/1/1", b"ROOT", b"R/$", b"R/*", b"*L", b"*L/1", b"L*", b"L$", b"L//_", b"A1", b"* ", b"*L*L")
put(f403(1), term, b"**", b"$1", b"$$", b"*1", b"*$", b"$*", b"$L", b"**L", b"*/L", b"/L", b"_L", b"1", b"-", b"L-1", b"L.1", b"L@x", b"L /1",
    b"L\x80", b"\xff", b"[1.2.3.4]", b"\"L\"", b"* L")
put(GOOD, term, ("name of 64 bytes", b"L" * 64), ("name of 64 bytes, *", b"*" + b"L" * 63), ("name of 64 bytes, /", b"L" + b"/" * 63))
put(f403(1), term, ("name of 65 bytes", b"L" * 65), ("name of 65 bytes, *", b"*" + b"L" * 64), ("name of 65 bytes, /", b"L" + b"/" * 64))

# ---- items

put(GOOD, item, b"M{O{MO=SR}}", b"m", b"m=1", b"m/p", b"m/p=1", b"m/p{x}", b"m=1{x}", b"m/p=1{x,y/z}", b"m,n", b"m=1,n=2", b"m{x},n{y}",
    b"m_1/p_2", b"PR,EG=1")
put(f403(1), item, b"", b" ", b",", b"m,", b",m", b"m,,n", b"m n", b"m/", b"m/1", b"/p", b"m/p/q", b"m /p", b"m/ p", b"m=", b"m==1", b"m=1=2",
    b"m{x}{y}", b"m{x}=1", b"1m", b"_m", b"m-n", b"O-m", b"m{", b"m{x", b"m{}", b"m=1{}", b"m/p{}", b"m{x{}}", b"m{x,}", b"m{,x}", b"m\x00",
    b"m{\xff}", b"=1", b"\"m\"", b"*")
put(F400, item, b"m}")
put(GOOD, item, ("word of 64 bytes", b"m" * 64), ("second word of 64 bytes", b"m/" + b"p" * 64), ("1,000", b",".join([b"m"] * 1000)))
put(f403(1), item, ("word of 65 bytes", b"m" * 65), ("second word of 65 bytes", b"m/" + b"p" * 65))
put(GOOD, message, ("8 levels", nested(8)), ("8 levels, values", nested(8, b"m=1,n=\"\"")))
put(f403(1), message, ("9 levels", nested(9)), ("10 levels", nested(10)), ("900 levels", nested(900)),
    ("9 levels, after 8", inside(b"A=$" + b"{m" * 8 + b"," + b"m{m}" + b"}" * 8)))
put(f403(1), message, *[("empty braces at level %d" % n, nested(n, b"")) for n in range(1, 10)])
# CR 1: "Audit/AT may have empty braces, at level 1 of any command, document 01's one exception"
put(GOOD, item, b"AT{}", b"at{ }", b"Audit{\t}", b"aUdIt {\r\n} ", b"AT{;c\n}", b"AT=1{}", b"AT=\"x\" { }", b"AT", b"AT=1", b"AT{M}", b"AT{M{x}}",
    b"m,AT{},n{x}", b"AT{},AT{}", b"AT/x{m}")
put(f403(1), item, b"AT/x{}", b"Audit/AT{}", b"m{AT{}}", b"AT{AT{}}", b"AT{M{}}", b"AT{,}", b"AT{}{}", b"AT{}=1", b"AT{;}", b"AT{", b"AT{{}}",
    b"AT{},", b"A{}", b"ATT{}", b"AUDITS{}", b"AV{}", b"AuditValue{}", b"AT_{}", b"m{}", b"M{}", b"AT/{}")
put(GOOD, inside, b"AV=${AT{}}", b"MF=L/1/1{AT{}}", b"MV=*{AT{}},S=${at{}}", b"O-W-Q=ROOT{Audit{}}")
put(f403(1), inside, b"AV=${}", b"AT=${}", b"AV=${ }", b"AV{AT{}}")
put(f403(1), message, *[("AT{} at level %d" % n, nested(n, b"AT{}")) for n in range(2, 10)])

# ---- Local and Remote with a text (document 02, CR 11), written down from its sentences
def media(x):
    return item(b"M{" + x + b"}")


put(GOOD, media, b"L{}", b"R{}", b"local{ }", b"Remote ;c\n{\tv=0\r\n}", b"L{v=0}", b"L{{}", b"L{,=;\"}", b"L{\\}}", b"L{\\\\}}", b"L{\x01\x7f\x80\xff}", b"L{x} , R{y}",
    b"L{a},L{b}", b"R,L=5", b"L=5{a}", b"L/x{a}", b"O{L{a}}", b"L{;c\nx}", b"LOCAL\r\n{ }")
put(f403(1), media, b"L{", b"L{x", b"L{x\\}", b"L{a\x00b}", b"L{\x00", b"L{;c}", b"L=5{}", b"L/x{}", b"LL{}", b"O{L{}}", b"L{}{}", b"L{}=1", b"L{},", b"L {} x", b"L;{}")
put(GOOD, item, b"m=1{L{}}", b"MEDIA{R{v=0}}", b"x{L{a}}", b"L{a}", b"M/x{L{a}}", b"AT{M{L{a}}}", b"M{O{x},L{{{},R{}}")
put(f403(1), item, b"L{}", b"R{}", b"M/x{L{}}", b"AT{M{L{}}}", b"x{L{}}", b"MM{L{}}")
put(GOOD, inside, b"S=${M{L{}}}", b"AV=${M{R{\\}}}}", b"Q=ROOT{M{L{}}}")
put(f403(1), message, ("8 levels, a brace short", nested(8)[:-1]))
put(f403(1), message, ("8 levels, two braces short", nested(8)[:-2]))
put(F400, message, ("8 levels, a brace more", nested(8) + b"}"))

# ---- values

SAFE = b"AZaz09+-&!_/'?@^`~*$\\()%|."
REST = b";[]{}:,#<>="
put(GOOD, value, SAFE, b"1", b"-", b"\"\"", b"\"a b\tc\"", b"\"" + REST + b"\"", b"\"" + SAFE + b"\"", b" \"x\" ", b"\";\"")
put(f403(1), value, *[bytes([b]) for b in REST if b not in b";"])
put(f403(1), value, b";", b"\"", b"\"a", b"a\"", b"a\"b\"", b"\"a\"b", b"\"a\"\"b\"", b"\"\"\"", b"a b", b"a;b", b"a=b", b"a:b", b"a#",
    b"\"a\nb\"", b"\"a\rb\"", b"\"\x1f\"", b"\"\x7f\"", b"\"\x80\"", b"\"\xff\"", b"\"\x00\"", b"\x00", b"\x1f", b"\x7f", b"\x80", b"\xff", b"a\x7f",
    b"'a b'")
put(GOOD, value, ("plain, 64 bytes", b"v" * 64), ("quoted, 64 bytes", b"\"" + b"v" * 64 + b"\""), ("quoted, 64 spaces", b"\"" + b" " * 64 + b"\""))
put(f403(1), value, ("plain, 65 bytes", b"v" * 65), ("quoted, 65 bytes", b"\"" + b"v" * 65 + b"\""),
    ("quoted, 65 bytes, not closed", b"\"" + b"v" * 65))

# ---- white space

LOOSE = b"T%s=%s1%s{%sC%s=%s1%s{%sPR%s=%s1%s,%sEG%s,%sA%s=%s$%s{%sm%s=%s1%s{%sn/p%s,%so%s=%s\"q\"%s}%s,%sr%s}%s,%sS%s=%s*%s}%s,%sC%s=%s-%s{%sEG%s}%s}%s"


def loose(x):
    """White space at each place where it may stand."""
    return b"%s!/1%s[10.0.0.1]%s" % (x, x or b" ", x or b" ") + LOOSE % ((x,) * LOOSE.count(b"%s"))


put(GOOD, loose, ("without", b""), b" ", b"\t", b"\r", b"\n", b"\r\n \t", b";\n", b"; {}=,\"\r", b" ;~\n;\t\r ")
put(F400, loose, b";", b"\x0b", b"\xa0", b";\x80\n", b"\n;")
for n in range(LOOSE.count(b"%s")):
    # A comment that does not end, at each place: outside the transaction's braces at the first three and the last.
    places = [b""] * LOOSE.count(b"%s")
    places[n] = b";\x7f\n"
    put(F400 if n < 3 or n == len(places) - 1 else f403(1), message, ("comment with 0x7F at place %d" % (n + 1), trans(LOOSE % tuple(places))))
put(f403(1), inside, b"A=$;}}", b"A=$;c\n;", b"A=$ ;\x00\n", b";c", b";c\nA=$;c", b"A=$\x0c")

# ---- line noise and long messages

put(F400, message, ("of no bytes", b""), b"!", b"M", b" ", b"{", b"}", b";", b"0", b"\n", b"\"", b"\x00", b"\x7f", b"\x80", b"\xff", b"\r\n")
for b in (b"{", b"}", b";", b"=", b"1", b"0", b"A", b"!", b"*", b" ", b"\n", b"\"", b"\x00", b"\x7f", b"\xff", b";\n", b"T=1{", b"!/1 "):
    put(F400, message, ("4,096 bytes of " + shown(b), filled(b"", b)))
for b in (b"{", b";", b"1", b"A", b" ", b"\x00", b"\xff", b";\n"):
    put(F400, trans, ("to 4,096 bytes with " + shown(b), filled(trans(b""), b)[15:]))
put(F400, trans, ("T=, to 4,096 bytes with 1", filled(trans(b"T="), b"1")[15:]))
put(F400, trans, ("T=, to 4,096 bytes with 0", filled(trans(b"T="), b"0")[15:]))
for x in (b"T=1{", b"T=1{C=", b"T=1{C=1{", b"T=1{C=1{A=$"):
    for b in (b"{", b";", b"1", b" ", b"\x00", b"\xff", b",A=$"):
        put(f403(1), trans, (shown(x) + ", filled with " + shown(b), filled(trans(x), b)[15:]))
put(f403(1), value, ("of 4,000 bytes", b"v" * 4000), ("quoted, of 4,000 bytes", b"\"" + b"v" * 4000 + b"\""))
put(GOOD, last, ("comment of 4,000 bytes", b";" + b"c" * 4000 + b"\n"), ("4,000 line ends", b"\n" * 4000))
for n in (4095, 4096, 4097, 8192):
    put(GOOD, message, ("well-formed, of %d bytes" % n, filled(last(b""), b" ", n)))
    put(F400, message, ("a NUL at the end of %d bytes" % n, filled(last(b""), b" ", n - 1) + b"\x00"))
put(f403(1), message, ("a fault in 8192 bytes", filled(trans(b"T=1{"), b"C=1{A=$},", 8192)))


def main():
    command.parser(__doc__).parse_args()
    crate = os.path.join(command.TOP, "crates", "verdict_run")
    with open(os.path.join(crate, "stdin"), "wb") as f:
        for name, text, _ in CASES:
            f.write(b"%05d %s\n" % (len(text), name.ljust(41).encode()) + text + b"\n")
    with open(os.path.join(crate, "stdout"), "w") as f:
        for k, (name, _, verdict) in enumerate(CASES, 1):
            f.write("%d %s %s\n" % (k, name.ljust(41), verdict))
    counts = {}
    for _, _, verdict in CASES:
        counts[verdict[:3]] = counts.get(verdict[:3], 0) + 1
    print(len(CASES), "messages", counts, file=sys.stderr)


if __name__ == "__main__":
    command.run(main)
