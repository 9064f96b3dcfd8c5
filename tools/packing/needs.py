#!/usr/bin/env python3
"""What a program or a library asks of the machine: the least glibc, and the least processor.

usage: tools/packing/needs.py FILE..

The least glibc is the highest version of a symbol that the file takes from it (objdump -T). The least processor is the lowest of x86-64,
x86-64-v2, -v3, -v4 that has all instructions of the file (objdump -d), and beside it stand the first few that x86-64 lacks. `tzcnt` is not
counted: older processors read it as `bsf`, and compilers write it where both give the same. A processor that is asked for at run time before
a higher one's instructions are used would be told too high; nothing here does that.
"""
import collections
import functools
import re
import subprocess
import sys

import files

V2 = """addsubpd addsubps haddpd haddps hsubpd hsubps lddqu movddup movshdup movsldup
 pshufb palignr pabsb pabsw pabsd phaddw phaddd phaddsw phsubw phsubd phsubsw pmaddubsw pmulhrsw psignb psignw psignd
 pinsrb pinsrd pinsrq pextrb pextrd pextrq pblendw pblendvb blendps blendpd blendvps blendvpd roundps roundpd roundss roundsd pminsb pminsd pminuw
 pminud pmaxsb pmaxsd pmaxuw pmaxud ptest pcmpeqq pmulld pmuldq packusdw insertps extractps dpps dppd mpsadbw movntdqa phminposuw
 pmovzxbw pmovzxbd pmovzxbq pmovzxwd pmovzxwq pmovzxdq pmovsxbw pmovsxbd pmovsxbq pmovsxwd pmovsxwq pmovsxdq
 pcmpgtq pcmpestri pcmpestrm pcmpistri pcmpistrm crc32b crc32w crc32l crc32q crc32 popcnt cmpxchg16b""".split()
V3 = "andn bextr blsi blsmsk blsr lzcnt bzhi mulx pdep pext rorx sarx shlx shrx movbe".split()
NOT_AVX = "verr verw vmcall vmclear vmlaunch vmload vmmcall vmptrld vmptrst vmread vmresume vmrun vmsave vmwrite vmxoff vmxon vmfunc".split()
# what was read of a file, by its sum
known = {}
LEVELS = ["x86-64", "x86-64-v2", "x86-64-v3", "x86-64-v4"]


@functools.cache
def said(*words):
    return subprocess.run(words, capture_output=True, text=True, errors="replace", check=True, env={"LC_ALL": "C", "PATH": "/usr/bin:/bin"}).stdout


def least_glibc(path):
    """As (2, 14); None if it takes nothing with a version."""
    found = re.findall(r"\(?GLIBC_(\d+)\.(\d+)[.\d]*\)?", said("objdump", "-T", path))
    return max(((int(a), int(b)) for a, b in found), default=None)


def of_newest(path):
    """The symbols that ask for the newest glibc."""
    newest = least_glibc(path)
    rows = re.findall(r"GLIBC_(\d+)\.(\d+)[.\d]*\)?\s+(\S+)$", said("objdump", "-T", path), re.M)
    return sorted({name for a, b, name in rows if (int(a), int(b)) == newest})


def level_of(name, operands):
    base = name.rstrip("bwlq") if name not in V2 and name not in V3 else name
    if "zmm" in operands or "%k" in operands:
        return 3
    if name in V3 or base in V3 or (name.startswith("v") and name not in NOT_AVX):
        return 2
    return 1 if name in V2 or base in V2 else 0


def least_processor(path):
    """The lowest level, and how often each instruction is there that the first level lacks. The same bytes are read once, wherever they lie."""
    sum = files.sum_of(path)
    if sum not in known:
        known[sum] = read_processor(path)
    return known[sum]


def read_processor(path):
    level, beyond = 0, collections.Counter()
    for line in subprocess.Popen(["objdump", "-d", "--no-show-raw-insn", path], stdout=subprocess.PIPE, text=True, errors="replace").stdout:
        at = re.match(r"\s*[0-9a-f]+:\t(?:(?:lock|rep|repz|repnz|bnd|notrack|data16|cs|ds) )*(\w+)\s*(.*)", line)
        if not at:
            continue
        found = level_of(at[1], at[2])
        if found:
            beyond[at[1]] += 1
            level = max(level, found)
    return LEVELS[level], beyond


def told(path):
    glibc, (processor, beyond) = least_glibc(path), least_processor(path)
    uses = ", ".join(f"{name} {count}" for name, count in beyond.most_common(6))
    newest = f" ({', '.join(of_newest(path))})" if glibc else ""
    return f"glibc {'.'.join(map(str, glibc)) if glibc else 'any'}{newest}; {processor}" + (f" ({uses})" if uses else "")


if __name__ == "__main__":
    if len(sys.argv) < 2 or sys.argv[1].startswith("-"):
        sys.exit(__doc__)
    for it in sys.argv[1:]:
        print(f"{it}: {told(it)}")
