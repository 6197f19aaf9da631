"""Which files of a library are compiled, with which flags, and what is computed with it.

Paths begin at the folder into which Debian's source package of that name is unpacked; an @ in a flag stands for the
folder of all of them, and a % for one into which compiling.py writes what a configure script would.
"""

from __future__ import annotations

import bz2
import dataclasses
import gzip
import lzma
import math
import pathlib
import struct
import subprocess
import zlib

ZLIB = [f"zlib/{n}.c" for n in "adler32 crc32 deflate inffast inflate inftrees trees zutil".split()]
XZ = "xz-utils/src/liblzma/"
XZ_COMMON = """common block_util filter_common stream_flags_common vli_size alone_decoder auto_decoder block_decoder
    block_header_decoder filter_decoder filter_flags_decoder index_hash stream_decoder stream_flags_decoder vli_decoder
    lzip_decoder""".split()
XZ_FOLDERS = """common liblzma/api liblzma/common liblzma/check liblzma/lz liblzma/rangecoder liblzma/lzma
    liblzma/delta liblzma/simple""".split()
XZ_FLAGS = """-DHAVE_STDINT_H -DHAVE_STDBOOL_H -DHAVE_INTTYPES_H -DHAVE_CHECK_CRC32 -DHAVE_CHECK_CRC64
    -DHAVE_CHECK_SHA256 -DHAVE_DECODERS -DHAVE_DECODER_LZMA1 -DHAVE_DECODER_LZMA2 -DHAVE_LZIP_DECODER
    -DTUKLIB_SYMBOL_PREFIX=lzma_ -DHAVE_VISIBILITY=0"""
DEFLATE = "libdeflate/lib/"
MBEDTLS = """aes bignum ecdsa ecp ecp_curves sha256 md hmac_drbg asn1write asn1parse constant_time platform_util
    platform""".split()
YAML_VERSION = "-DYAML_VERSION_MAJOR=0 -DYAML_VERSION_MINOR=2 -DYAML_VERSION_PATCH=5 -DYAML_VERSION_STRING=\"0.2.5\""
JANSSON = {"@json_inline@": "inline", "@json_have_long_long@": "1", "@json_have_localeconv@": "0", "@json_have_atomic_builtins@": "0",
           "@json_have_sync_builtins@": "0"}
LITTLE_ENDIAN = {"@MSGPACK_ENDIAN_BIG_BYTE@": "0", "@MSGPACK_ENDIAN_LITTLE_BYTE@": "1"}
SODIUM = "libsodium/src/libsodium/include"
SODIUM_VERSION = {"@VERSION@": "1.0.18", "@SODIUM_LIBRARY_VERSION_MAJOR@": "10", "@SODIUM_LIBRARY_VERSION_MINOR@": "3",
                  "@SODIUM_LIBRARY_MINIMAL_DEF@": ""}
SPEEX = {"@INCLUDE_STDINT@": "#include <stdint.h>", "@SIZE16@": "int16_t", "@USIZE16@": "uint16_t", "@SIZE32@": "int32_t", "@USIZE32@": "uint32_t"}
SNAPPY = {"${HAVE_SYS_UIO_H_01}": "1", "${PROJECT_VERSION_MAJOR}": "1", "${PROJECT_VERSION_MINOR}": "1", "${PROJECT_VERSION_PATCH}": "9"}
GIF = "dgif_lib egif_lib gifalloc gif_hash gif_err openbsd-reallocarray".split()
TRE = {"#undef HAVE_SYS_TYPES_H": "#define HAVE_SYS_TYPES_H 1", "#undef TRE_APPROX": "#define TRE_APPROX 1",
       "#undef TRE_VERSION\n": "#define TRE_VERSION \"0.8.0\"\n"}
JIM_MADE = ("jimtcl/jim-config.h.in", {"@DEFINE_HAVE_LONG_LONG@": "#define HAVE_LONG_LONG 1"})
JIM = "-DJIM_VERSION=81 -DJIM_TCL_COMPAT -DJIM_ANSIC -DJIM_REGEXP -DTCL_LIBRARY=\".\""
TOMCRYPT = """ciphers/aes/aes encauth/gcm/* encauth/chachapoly/* stream/chacha/* mac/poly1305/* mac/hmac/* hashes/sha3 hashes/sha3_test hashes/sha2/sha256
    hashes/helper/* misc/zeromem misc/mem_neq misc/burn_stack misc/error_to_string misc/compare_testvector misc/crypt/crypt_register_cipher
    misc/crypt/crypt_register_hash misc/crypt/crypt_*_descriptor misc/crypt/crypt_*_is_valid misc/crypt/crypt_find_hash
    misc/crypt/crypt_find_cipher""".split()
LUA_LEFT_OUT = ("lua.c", "luac.c", "linit.c", "loslib.c", "liolib.c", "loadlib.c", "ldblib.c")


@dataclasses.dataclass
class Port:
    package: str              # Debian's source package
    sources: list[str]        # patterns of the files to compile
    flags: str = ""
    # files that a pattern names and that are not compiled
    without: tuple[str, ...] = ()
    native_sources: list[str] = dataclasses.field(default_factory=list)
    wasm_flags: str = ""
    lower: bool = False       # has floats: lower.py rewrites the module
    jumps: bool = False       # calls setjmp
    no_files: bool = False    # names files and clocks: nofiles.c answers
    cpp: bool = False         # is of C++, and so is its glue
    # files below %: each of which template, with what in its places
    made: dict[str, tuple[str, dict[str, str]]] = dataclasses.field(default_factory=dict)


PORTS = {
    "zlib": Port("zlib", ZLIB, "-I@/zlib"),
    "lz4": Port("lz4", ["lz4/lib/lz4.c"], "-I@/lz4/lib"),
    "bzip2": Port("bzip2", [f"bzip2/{n}.c" for n in
                  "blocksort huffman crctable randtable compress decompress bzlib".split()],
                  "-I@/bzip2 -DBZ_NO_STDIO"),
    "xz": Port("xz-utils", [f"{XZ}common/{n}.c" for n in XZ_COMMON]
               + [f"{XZ}check/{n}.c" for n in "check crc32_fast crc32_table crc64_fast crc64_table sha256".split()]
               + [XZ + "lz/lz_decoder.c", XZ + "lzma/lzma_decoder.c", XZ + "lzma/lzma2_decoder.c"],
               " ".join("-I@/xz-utils/src/" + f for f in XZ_FOLDERS) + " " + XZ_FLAGS,
               wasm_flags="-Dsigset_t=int -Wno-implicit-function-declaration", lower=True),   # declared, never used
    "zstd": Port("libzstd", ["libzstd/lib/common/*.c", "libzstd/lib/decompress/*.c"],
                 "-I@/libzstd/lib -DZSTD_DISABLE_ASM -DDYNAMIC_BMI2=0 -DXXH_NAMESPACE=ZSTD_",
                 without=("threading.c", "pool.c", "debug.c")),
    "libdeflate": Port("libdeflate", [f"{DEFLATE}{n}.c" for n in "adler32 crc32 deflate_compress deflate_decompress "
                       "gzip_compress gzip_decompress utils".split()],
                       "-I@/libdeflate", native_sources=[DEFLATE + "x86/cpu_features.c"]),
    "md4c": Port("md4c", [f"md4c/src/{n}.c" for n in "md4c md4c-html entity".split()], "-I@/md4c/src",
                 lower=True),
    "jsmn": Port("jsmn", [], "-I@/jsmn", lower=True),
    "utf8proc": Port("utf8proc", ["utf8proc/utf8proc.c"], "-I@/utf8proc -DUTF8PROC_STATIC"),
    "mbedtls": Port("mbedtls", [f"mbedtls/library/{n}.c" for n in MBEDTLS],
                    "-I@/mbedtls/include -I@/../../config/mbedtls -DMBEDTLS_CONFIG_FILE=<guest_config.h>"),
    "yaml": Port("libyaml", [f"libyaml/src/{n}.c" for n in "api parser reader scanner loader".split()],
                 YAML_VERSION + " -I@/libyaml/include", lower=True),
    "cjson": Port("cjson", ["cjson/cJSON.c"], "-I@/cjson", lower=True),
    "expat": Port("expat", [f"expat/expat/lib/{n}.c" for n in "xmlparse xmlrole xmltok".split()],
                  "-I@/expat/expat/lib -I@/../../config/expat", lower=True, no_files=True),
    "lua": Port("lua5.4", ["lua5.4/src/*.c"], "-I@/lua5.4/src", without=LUA_LEFT_OUT, lower=True, jumps=True,
                no_files=True),
    "mujs": Port("mujs", ["mujs/one.c"], "-I@/mujs", lower=True, jumps=True, no_files=True),
    "duktape": Port("duktape", ["duktape/src/duktape.c"], "-I@/duktape/src", wasm_flags="-fno-jump-tables", lower=True,
                    jumps=True, no_files=True),
    "b64": Port("libb64", ["libb64/src/*.c"], "-I@/libb64/include -DBUFFERSIZE=1"),
    "brotli": Port("brotli", ["brotli/c/common/*.c", "brotli/c/dec/*.c", "brotli/c/enc/*.c"], "-I@/brotli/c/include", lower=True),
    "csv": Port("libcsv", ["libcsv/libcsv.c"], "-I@/libcsv"),
    "gif": Port("giflib", [f"giflib/{n}.c" for n in GIF], "-I@/giflib", no_files=True),
    "http": Port("http-parser", ["http-parser/http_parser.c"], "-I@/http-parser", lower=True),
    "jansson": Port("jansson", ["jansson/src/*.c"],
                    "-I@/jansson/src -I% -I@/../../config/jansson -DHAVE_CONFIG_H", lower=True, no_files=True,
                    made={"jansson_config.h": ("jansson/src/jansson_config.h.in", JANSSON)}),
    "msgpack": Port("msgpack-c", ["msgpack-c/src/*.c"], "-I@/msgpack-c/include -I% -I%/msgpack", lower=True,
                    made={f"msgpack/{n}.h": (f"msgpack-c/cmake/{n}.h.in", LITTLE_ENDIAN) for n in ("sysdep", "pack_template")}),
    "png": Port("libpng1.6", ["libpng1.6/png*.c", *ZLIB], "-I@/libpng1.6 -I@/zlib -I%", without=("pngtest.c",), lower=True,
                jumps=True, no_files=True, made={"pnglibconf.h": ("libpng1.6/scripts/pnglibconf.h.prebuilt", {})}),
    "qrencode": Port("qrencode", ["qrencode/*.c"], "-I@/qrencode -DSTATIC_IN_RELEASE=static -DMAJOR_VERSION=4 "
                     "-DMINOR_VERSION=1 -DMICRO_VERSION=1 -DVERSION=\"4.1.1\"", without=("qrenc.c",), no_files=True),
    "snappy": Port("snappy", [f"snappy/{n}.cc" for n in ("snappy", "snappy-sinksource", "snappy-stubs-internal")],
                   "-I@/snappy -I% -DNDEBUG", no_files=True, cpp=True,
                   made={"snappy-stubs-public.h": ("snappy/snappy-stubs-public.h.in", SNAPPY)}),
    "sodium": Port("libsodium", ["libsodium/src/libsodium/**/*.c"],
                   f"-I@/{SODIUM} -I@/{SODIUM}/sodium -I% -I%/sodium -DCONFIGURED=1 -DNATIVE_LITTLE_ENDIAN=1 -DSODIUM_STATIC=1 -DDEV_MODE=1",
                   lower=True, no_files=True, made={"sodium/version.h": (f"{SODIUM}/sodium/version.h.in", SODIUM_VERSION)}),
    "speex": Port("speex", ["speex/libspeex/*.c"], "-I@/speex/include -I@/speex/libspeex -I%/speex -I% -DFIXED_POINT -DDISABLE_FLOAT_API "
                  "-DEXPORT= -DUSE_SMALLFT", without=("testenc.c", "testenc_wb.c", "testenc_uwb.c"), lower=True, no_files=True,
                  made={"speex/speex_config_types.h": ("speex/include/speex/speex_config_types.h.in", SPEEX)}),
    "tinyxml2": Port("tinyxml2", ["tinyxml2/tinyxml2.cpp"], "-I@/tinyxml2", lower=True, no_files=True, cpp=True),
    "tommath": Port("libtommath", ["libtommath/bn_*.c"], "-I@/libtommath -DMP_NO_FILE -DMP_NO_DEV_URANDOM", no_files=True),
    "jim": Port("jimtcl", [f"jimtcl/{n}.c" for n in "jim jim-subcmd jim-format jim-regexp jimregexp utf8".split()], f"-I@/jimtcl -I% {JIM}",
                lower=True, jumps=True, no_files=True, made={"jimautoconf.h": JIM_MADE, "jim-config.h": JIM_MADE}),
    "tomcrypt": Port("libtomcrypt", [f"libtomcrypt/src/{n}.c" for n in TOMCRYPT], "-I@/libtomcrypt/src/headers -DLTC_SOURCE -DLTC_NO_FILE "
                     "-DLTC_NO_TEST -DARGTYPE=4", without=("sha256_x86.c", "crypt_ltc_mp_descriptor.c", "crypt_prng_rng_descriptor.c"), no_files=True),
    "tre": Port("tre", ["tre/lib/reg*.c", "tre/lib/tre-*.c"], "-I@/tre/lib -I% -DTRE_REGEX_T_FIELD=value", lower=True, no_files=True,
                made={"tre-config.h": ("tre/lib/tre-config.h.in", TRE)}),
    "xxhash": Port("xxhash", ["xxhash/xxhash.c"], "-I@/xxhash"),
    "quickjs": Port("quickjs", [f"quickjs/{n}.c" for n in "quickjs libregexp libunicode cutils dtoa".split()],
                    "-I@/quickjs -D_GNU_SOURCE -DCONFIG_VERSION=\"2025-04-26\"", wasm_flags="-Os -fno-jump-tables -DEMSCRIPTEN",
                    lower=True, no_files=True),
    "squirrel": Port("squirrel3", ["squirrel3/squirrel/*.cpp", *(f"squirrel3/sqstdlib/sqstd{n}.cpp" for n in "aux math string rex".split())],
                     "-I@/squirrel3/include -I@/squirrel3/squirrel -I@/squirrel3/sqstdlib",
                     wasm_flags="-include cmath -include new",     # (before its macro `type`)
                     lower=True, jumps=True, no_files=True, cpp=True),
}

# The source packages that Debian 12 lacks, of sid.
OF_SID = "quickjs", "squirrel3"

# glue/zloop.c includes glue/zlib.c: a guest of a loop, whose workers deflate and inflate.
LOOP = Port("zlib", ZLIB, "-I@/zlib", lower=True)

LUA_PROGRAM = b"""
local function sieve(n) local t = {} for i = 2, n do t[i] = true end
  for i = 2, n do if t[i] then for j = i * i, n, i do t[j] = nil end end end
  local c = 0 for i = 2, n do if t[i] then c = c + 1 end end return c end
print(sieve(20000))
local s = 0.0 for i = 1, 20000 do s = s + 1 / i end print(s, string.format("%.17g", s))
local words = {} for w in ("the quick brown fox"):gmatch("%a+") do words[#words + 1] = w:upper() end
table.sort(words) print(table.concat(words, " "))
for i = 1, 100 do local ok, e = pcall(error, {i}) assert(not ok and e[1] == i) end
print(pcall(string.rep, "x", -1), math.sin(1), 2 ^ 0.5, 7 // 2.0, 1e308 * 10)
"""
JAVASCRIPT = b"""
function sieve(n) { var t = [], c = 0; for (var i = 0; i <= n; i++) t[i] = true;
  for (i = 2; i <= n; i++) if (t[i]) { c++; for (var j = i * i; j <= n; j += i) t[j] = false; } return c; }
print(sieve(5000));
var s = 0; for (var i = 1; i <= 20000; i++) s += 1 / i; print(s);
print(JSON.stringify({a: [1, 2.5, "x", null, true], b: {c: 1e21, d: 0.1 + 0.2}}));
print("the quick brown fox".split(" ").map(function (w) { return w.toUpperCase(); }).sort().join(","));
for (i = 0; i < 100; i++) try { throw new Error("e" + i); } catch (e) { if (e.message !== "e" + i) print("wrong"); }
print(/(\\d+)-(\\w+)/.exec("a 12-bc"), Math.sin(1), Math.sqrt(2), (1234.5678).toFixed(2));
"""
MODERN = b"""
class Point { constructor(x, y) { Object.assign(this, { x, y }); } get size() { return Math.hypot(this.x, this.y); } }
print(new Point(3, 4).size, [...new Set([3, 1, 3])].map(it => it ** 2), `${2n ** 100n}`);
function* squares(n) { for (let i = 0; i < n; i++) yield i * i; }
const { a = 1, ...rest } = { b: [...squares(5)], c: new Map([["k", 2]]) }; print(a, JSON.stringify(rest), rest.c.get("k"));
print("caf\\u00e9 \\u{1F600}".normalize("NFD").length, "x1y22".replace(/(?<n>\\d+)/gu, "<$<n>>"));
print([5, 2, 9].toSorted?.(), Object.entries({ p: null }).flat(), 0.1 + 0.2, 1e21, 123456789 * 987654321);
"""
SQUIRREL = b"""
function sieve(n) {
    local found = 0, there = array(n + 1, true);
    for (local i = 2; i <= n; i++) if (there[i]) { found++; for (local j = i * i; j <= n; j += i) there[j] = false; }
    return found;
}
print(sieve(5000) + "\\n");
local sum = 0.0;
for (local i = 1; i <= 20000; i++) sum += 1.0 / i;
print(format("%.3f %d %s\\n", sum, 1234, "x"));
class Point { x = 0; y = 0; constructor(a, b) { x = a; y = b; } function size() { return sqrt(x * x + y * y); } }
print(Point(3.0, 4.0).size() + "\\n");
local words = split("the quick brown fox", " ");
words.sort(); foreach (i, w in words) print(i + "=" + w.toupper() + " ");
local squares = (function (n) { for (local i = 0; i < n; i++) yield i * i; })(5), it;
while ((it = resume squares) != null) print(it + " ");
for (local i = 0; i < 100; i++) try { throw "e" + i; } catch (e) { if (e != "e" + i) print("wrong"); }
print(regexp(@"(\\d+)-(\\w+)").capture("a 12-bc").len() + "\\n");
"""
TCL = rb"""
proc sieve {n} {
    set found {}
    for {set i 2} {$i <= $n} {incr i} { set there($i) 1 }
    for {set i 2} {$i <= $n} {incr i} {
        if {$there($i)} {
            lappend found $i
            for {set j [expr {$i * $i}]} {$j <= $n} {incr j $i} { set there($j) 0 }
        }
    }
    return [llength $found]
}
set sum 0.0
for {set i 1} {$i <= 500} {incr i} { set sum [expr {$sum + 1.0 / $i}] }
set words [lsort [split "the quick brown fox" " "]]
regexp {(\d+)-(\w+)} "a 12-bc" all number word
set caught [catch {error "no such thing"} why]
list [sieve 300] $sum $words $number $word $caught $why [format "%08.3f %x" 3.14159 255] [dict get {a 1 b 2} b] [lmap x {1 2 3} { expr {$x ** 2} }]
"""
NUMBERS = b'{"a":[1,2.5,-1e300,0.1,1e-7,123456789012],"c":"d\\u00e9"}'


SPEECH = b"".join(struct.pack("<h", int(9000 * math.sin(i / 9) + 3000 * math.sin(i / 2.3))) for i in range(16000))
HTTP = (b"POST /a/b?c=d HTTP/1.1\r\nHost: x.y\r\nTransfer-Encoding: chunked\r\n\r\n5\r\nhello\r\n6\r\n world\r\n0\r\n\r\n"
        b"GET / HTTP/1.1\r\nHost: b\r\nContent-Length: 3\r\n\r\nabc") * 20
PACKED = bytes.fromhex("83a161c3a16293010203a163cb400921fb54442d18a164d920") + b"z" * 32 \
    + bytes.fromhex("ce00010203d3ffffffff00000000c0c2ca3fc00000")
OBJECT = b'{"b":[1,2.5,-1e300,0.1,{"x":null,"y":[true,"\\u00e9\\ud83d\\ude00"]}],"a":"' + b"q" * 300 + b'"}'
XML = b"<?xml version='1.0'?><r a='1'><b>" + b"".join(b"<i n='%d'>t &lt; %d</i>" % (i, i * i) for i in range(400)) + b"</b></r>"
CSV = b'a,b,"c ""d"" e",f\r\n1,2,3\n,,\n"x\ny",z' * 100
NOISE = bytes((i * 2654435761 >> 13) & 255 for i in range(4096))


def png() -> bytes:
    """A picture of 100 times 60 points."""
    def chunk(kind: bytes, data: bytes) -> bytes:
        return struct.pack(">I", len(data)) + kind + data + struct.pack(">I", zlib.crc32(kind + data))
    rows = b"".join(b"\1" + bytes((x * y + c * 50) & 255 for x in range(100) for c in range(3)) for y in range(60))
    head = struct.pack(">IIBBBBB", 100, 60, 8, 2, 0, 0, 0)
    return b"\x89PNG\r\n\x1a\n" + chunk(b"IHDR", head) + chunk(b"IDAT", zlib.compress(rows)) + chunk(b"IEND", b"")


def tool(words: list[str], data: bytes) -> bytes:
    return subprocess.run(words, input=data, stdout=subprocess.PIPE, check=True).stdout


def rows(sources: pathlib.Path) -> list[tuple[str, int, bytes, str]]:
    """(port, operation, request, what it is): the texts are Debian's GPL-3 and files of the packages themselves."""
    def read(path: str, most: int = 60000) -> bytes:
        return (pathlib.Path(sources) / path).read_bytes()[:most]
    gpl = pathlib.Path("/usr/share/common-licenses/GPL-3").read_bytes()
    xml, manual = read("expat/expat/doc/xmlwf.xml"), read("md4c/test/spec.txt", 40000)
    json = read("cjson/tests/json-patch-tests/tests.json")
    log = read("zlib/ChangeLog", 65535)
    megabyte = [{"id": lzma.FILTER_LZMA2, "preset": 6, "dict_size": 1 << 20}]
    return [
        ("zlib", 6, gpl, "deflate -6 GPL-3"),
        ("zlib", 9, log, "deflate -9 a change log"),
        ("zlib", 100, zlib.compress(gpl, 9), "inflate GPL-3"),
        ("zlib", 100, gzip.compress(log, 9, mtime=0), "gunzip a change log"),
        ("zlib", 100, b"\x78\x9c" + bytes(range(200)), "inflate invalid data"),
        ("lz4", 0, gpl, "compress GPL-3"),
        ("bzip2", 1, gpl, "compress -1 GPL-3"),
        ("bzip2", 100, bz2.compress(gpl, 1), "decompress -1 GPL-3"),
        ("xz", 60000, lzma.compress(gpl, preset=0), "decompress -0 GPL-3"),
        ("xz", 60000, lzma.compress(log, filters=megabyte), "decompress, 1 MiB dictionary"),
        ("zstd", 0, tool(["zstd", "-3qc"], gpl), "decompress -3 GPL-3"),
        ("zstd", 0, tool(["zstd", "-19qc"], log), "decompress -19 a change log"),
        ("libdeflate", 6, gpl, "gzip -6 GPL-3"),
        ("libdeflate", 100, gzip.compress(gpl, 9, mtime=0), "gunzip GPL-3"),
        ("md4c", 0x300, manual, "40,000 bytes of Markdown"),
        ("jsmn", 0, json, "a JSON text"),
        ("utf8proc", 1, read("utf8proc/NEWS.md"), "NFD of a text"),
        ("mbedtls", 0, gpl, "SHA-256 GPL-3"),
        ("mbedtls", 1, gpl, "AES-128-CBC GPL-3"),
        ("mbedtls", 2, gpl[:255] + b"\x07", "2^65537 mod 2048 bits"),
        ("yaml", 0, read("libyaml/examples/yaml-version.yaml"), "a small text"),
        ("yaml", 0, read("lz4/.github/workflows/ci.yml"), "a workflow"),
        ("cjson", 0, json, "a JSON text"),
        ("cjson", 1, NUMBERS, "numbers"),
        ("expat", 0, xml, "a manual in XML"),
        ("lua", 0, LUA_PROGRAM, "sieve, sums, sort, pcall"),
        ("mujs", 0, JAVASCRIPT, "sieve, sums, JSON, throw"),
        ("duktape", 0, JAVASCRIPT, "sieve, sums, JSON, throw"),
        ("b64", 0, gpl[:20000], "base64, both ways"),
        ("brotli", 5, gpl, "compress at quality 5 GPL-3"),
        ("brotli", 9, gpl[:20000], "compress at quality 9"),
        ("csv", 0, CSV, "rows of CSV"),
        ("gif", 1, gpl[:30000], "a GIF of 200 times 150"),
        ("http", 0, HTTP, "40 requests of HTTP"),
        ("http", 0, b"GET / HTTP/9.x\r\n", "invalid HTTP"),
        ("jansson", 1, OBJECT, "a JSON text"),
        ("jansson", 0, b'{"a":', "invalid JSON"),
        ("msgpack", 0, PACKED * 50, "350 objects"),
        ("png", 0, png(), "a PNG of 100 times 60"),
        ("png", 0, b"\x89PNG\r\n\x1a\nxx", "invalid PNG"),
        ("qrencode", 3, gpl[:800], "a QR code of 800 bytes"),
        ("snappy", 0, gpl, "compress GPL-3"),
        ("snappy", 1, b"junk", "uncompressed data"),
        ("sodium", 0, gpl, "BLAKE2b GPL-3"),
        ("sodium", 1, NOISE[:1000], "Ed25519 sign and verify"),
        ("sodium", 2, NOISE, "XChaCha20-Poly1305"),
        ("sodium", 3, NOISE[:32], "X25519"),
        ("sodium", 4, NOISE[:20], "Argon2id, 64 KiB"),
        ("speex", 5, SPEECH, "5 frames of speech"),
        ("tinyxml2", 0, XML, "a text in XML"),
        ("tinyxml2", 1, b"<a><b></a>", "invalid XML"),
        ("tommath", 0, b"", "the factorial of 500"),
        ("tommath", 1, NOISE[:65], "x^65537 mod 2^521 - 1"),
        ("xxhash", 1, gpl, "XXH3, XXH64, XXH32 GPL-3"),
        ("quickjs", 0, JAVASCRIPT + MODERN, "sieve, sums, classes, generators"),
        ("squirrel", 0, SQUIRREL, "sieve, sums, classes, throw"),
        ("jim", 0, TCL, "sieve, sums, regexp, catch"),
        ("tomcrypt", 0, gpl, "AES-128-GCM GPL-3"),
        ("tomcrypt", 1, gpl, "ChaCha20-Poly1305 GPL-3"),
        ("tomcrypt", 2, gpl, "SHA3-256 GPL-3"),
        ("tomcrypt", 3, gpl, "HMAC-SHA-256 GPL-3"),
        ("tre", 1, b"lic(en[cs]e)s?|(copy)right\n" + gpl[:8000], "8,000 bytes, with an error"),
    ]
