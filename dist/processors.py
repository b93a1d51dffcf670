"""The processors of Linux that a release is for, and what is named after each."""
import os
import re
from typing import NamedTuple


class Processor(NamedTuple):
    """A processor: its name in files of releases and wheels, Debian's name, the least level, and the prefix of its tools."""
    name: str
    debian: str
    level: str
    prefix: str
    # Instructions that a processor of this level need not have.
    beyond: re.Pattern

    @property
    def multiarch(self):
        """Debian's folder of libraries."""
        return f"usr/lib/{self.name}-linux-gnu"

    @property
    def compiler(self):
        return f"{self.prefix}gcc" if self.prefix else os.environ.get("CC", "cc")

    def tool(self, name):
        """A tool of binutils."""
        return self.prefix + name


# In the first part are those of x86-64-v2: SSE3, SSSE3, SSE4, POPCNT. Those of AVX and later begin with v. TZCNT is not among them: older
# processors run it as BSF, and compilers use it as
# such.
X86_64 = Processor("x86_64", "amd64", "x86-64", "", re.compile(
    r"addsubp[sd]|h(?:add|sub)p[sd]|lddqu|movddup|movs[hl]dup|fisttp\w*|cmpxchg16b|popcnt\w*|pabs\w|palignr|ph(?:add|sub|min)\w+|pmaddubsw"
    r"|pmulhrsw|pshufb|psign\w|p?blend\w+|dpp[sd]|extractps|insertps|p(?:extr|insr)[bdq]|p(?:max|min)(?:sb|sd|uw|ud)|pmov[sz]x\w+"
    r"|pmul(?:dq|ld)|packusdw|pcmp(?:eq|gt)q|ptest|round[ps][sd]|mpsadbw|movntdqa|pcmp[ei]str\w|crc32\w*|"
    r"v(?!err|erw)\w+|andn|bextr|bls(?:i|r|msk)|bzhi|mulx|pdep|pext|rorx|s[ah][lr]x|lzcnt|movbe|ad[co]x"
    r"|sha(?:1|256)\w+|aes\w+|pclmul\w+|rd(?:rand|seed)"))
# Armv8.0-A, without its optional parts and what came later: atomics of Armv8.1, CRC, cryptography, dot products, pointer authentication,
# SVE.
ARM64 = Processor("aarch64", "arm64", "armv8-a", "aarch64-linux-gnu-", re.compile(
    r"cas\w*|swp\w*|(?:ld|st)(?:add|clr|eor|set|[su]max|[su]min)\w*|crc32\w*|aes\w+|sha\w+|sm[34]\w+|pmull2?|[su]{1,2}dot|ldapu?r\w*"
    r"|sqrdml[as]h|fjcvtzs|fc(?:mla|add)|(?:pac|aut|xpac)\w+|reta[ab]|blra\w+|bra[ab]z?|eor3|rax1|xar|bcax|ptrue\w*|while\w+|b?fmlal\w*"
    r"|cpy\w+|setp\w*|setm|sete\w*"))
ALL = (X86_64, ARM64)
