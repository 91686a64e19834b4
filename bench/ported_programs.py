"""The programs of others that ported.py builds: which package, which files of it, and by which flags."""
from dataclasses import dataclass


@dataclass(frozen=True)
class Program:
    """A program. Its main is ported/NAME.c; paths are those in its package; flags are the same for both machines."""

    name: str
    package: str
    sources: tuple  # patterns; one that begins with ! takes files away
    includes: tuple = ("",)
    flags: tuple = ()
    doubles: bool = False
    script: str = ""  # a file of ported/ that the main has as `script`
    files: tuple = ("*.[ch]",)  # what of the package is unpacked


def paths(folder, names):
    """The sources of a folder, by their names in a text."""
    return tuple(f"{folder}{name}.c" for name in names.split())


PROGRAMS = [
    Program(
        "zlib",
        "zlib",
        paths("", "adler32 compress crc32 deflate inffast inflate inftrees trees uncompr zutil"),
    ),
    Program(
        "bzip2",
        "bzip2",
        paths("", "blocksort bzlib compress crctable decompress huffman randtable"),
        flags=("-DBZ_NO_STDIO",),
    ),
    Program("lz4", "lz4", paths("lib/", "lz4 lz4hc xxhash"), includes=("lib",)),
    Program(
        "libtomcrypt",
        "libtomcrypt",
        (
            *paths("src/hashes/", "md4 md5 sha1 sha3 sha3_test rmd160 blake2s blake2b tiger"),
            *paths("src/hashes/", "sha2/sha256 sha2/sha512 whirl/whirl helper/hash_memory"),
            *paths("src/ciphers/", "aes/aes des blowfish"),
            *paths("src/mac/", "hmac/* omac/* poly1305/*"),
            "!*_file.c",
            *paths("src/modes/", "ctr/*"),
            *paths("src/encauth/", "ccm/* chachapoly/*"),
            *paths("src/stream/", "chacha/*"),
            *paths("src/misc/", "burn_stack compare_testvector error_to_string mem_neq zeromem"),
            *paths("src/misc/crypt/crypt_", "find_cipher find_hash cipher_descriptor hash_descriptor"),
            *paths("src/misc/crypt/crypt_", "cipher_is_valid hash_is_valid register_cipher register_hash"),
        ),
        includes=("src/headers",),
        flags=(
            *("-DLTC_SOURCE", "-DLTC_NO_ASM", "-DLTC_NO_FILE", "-DARGTYPE=4"),
            *("-DLTC_NO_PK", "-DLTC_NO_PKCS", "-DLTC_NO_PRNGS"),
        ),
    ),
    Program("tre", "tre", ("lib/*.c", "!lib/xmalloc.c"), includes=("lib",), flags=("-DTRE_REGEX_T_FIELD=value",)),
    # its sources are those of the arithmetic below
    Program("doubles", "glibc", (), doubles=True, files=("soft-fp/soft-fp.h",)),
    Program(
        "lua",
        "lua5.4",
        (
            "src/*.c",
            *(f"!src/{name}.c" for name in "lua luac linit liolib loslib loadlib ldblib".split()),
        ),
        includes=("src",),
        # the number by which its tables are laid out, which otherwise comes of an address and of the time
        flags=("-Dluai_makeseed(state)=0u",),
        doubles=True,
        script="script.lua",
    ),
    Program("mujs", "mujs", ("js*.c", "regexp.c", "utf.c"), doubles=True, script="script.js"),
    Program("duktape", "duktape", ("src/duktape.c",), includes=("src",), doubles=True, script="script.js"),
]

# ---- doubles, for a machine without a coprocessor

# what gcc calls for a double and for a float
ARITHMETIC = "glibc"
ARITHMETIC_FILES = ("soft-fp/*.[ch]", "stdlib/longlong.h", "sysdeps/arc/sfp-machine.h")
ARITHMETIC_SOURCES = paths(
    "soft-fp/",
    "adddf3 subdf3 muldf3 divdf3 negdf2 eqdf2 gedf2 ledf2 unorddf2 fixdfsi fixdfdi fixunsdfsi fixunsdfdi floatsidf"
    " floatdidf floatunsidf floatundidf extendsfdf2 truncdfsf2 addsf3 subsf3 mulsf3 divsf3 negsf2 eqsf2 gesf2 lesf2"
    " unordsf2 fixsfsi floatsisf floatunsisf",
)
ARITHMETIC_INCLUDES = ("soft-fp", "stdlib", "sysdeps/arc")
ARITHMETIC_FLAGS = (
    *("-D__LITTLE_ENDIAN=1234", "-D__BIG_ENDIAN=4321", "-D__BYTE_ORDER=1234"),
    "-Dstrong_alias(of,name)=extern __typeof(of) name __attribute__((alias(#of)))",
)

# the functions of <math.h>, strtod, and those that print
FUNCTIONS = "musl"
FUNCTIONS_FILES = ("*.[ch]", "*.h.in", "tools/mkalltypes.sed")
FUNCTIONS_SOURCES = (
    *paths(
        "src/math/",
        "__cos __expo2 __fpclassify __math_divzero __math_invalid __math_oflow __math_uflow __math_xflow __rem_pio2"
        " __rem_pio2_large __signbit __sin __tan acos acosh asin asinh atan atan2 atanh cbrt ceil copysign copysignl"
        " cos cosh exp exp2 exp_data expm1 fabs floor fmax fmin fmod fmodl frexp frexpl hypot ldexp log log10 log1p"
        " log2 log2_data log_data modf pow pow_data rint round scalbn scalbnl sin sinh sqrt sqrt_data tan tanh trunc",
    ),
    *paths("src/", "stdlib/strtod internal/floatscan internal/shgetc"),
    *paths("src/stdio/", "__toread __towrite __uflow fwrite snprintf sprintf vfprintf vsnprintf vsprintf"),
)
FUNCTIONS_INCLUDES = ("made", "arch/i386", "arch/generic", "src/include", "src/internal", "include")
# those that print doubles go by other names, since the library has those names too
PRINTING = ("snprintf", "sprintf", "vfprintf", "vsnprintf", "vsprintf")
RENAMED = (*PRINTING, "fwrite")
