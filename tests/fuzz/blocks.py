"""Writes the table of the basic blocks of the card's code, from `objdump -dr` of its one section on standard input.

A block begins at a function's first instruction, at the target of a jump, behind a conditional jump, and at the first
instruction that is no filler behind a jump, return or trap: nothing falls through to that one, so it is jumped to, by a
table if by no instruction.
"""
import re
import sys

FUNCTION = re.compile(r"^([0-9a-f]+) <(.+)>:$")
INSTRUCTION = re.compile(r"^ *([0-9a-f]+):\t(?:[0-9a-f]{2} )+ *\t?(.*)$")
RELOCATION = re.compile(r"^\s+([0-9a-f]+): R_")
FILLER = re.compile(r"^(?:data16 |cs |rex\S* )*(?:nop|int3|xchg +%ax,%ax)")
JUMP = re.compile(r"^(?:bnd |notrack )*(j[a-z]+|loop[a-z]*) +(?:([0-9a-f]+) <|\*)")
END = re.compile(r"^(?:bnd |repz |notrack )*(?:jmp|ret|ud2|hlt)")


def read(lines):
    """The functions' names by offset, and the instructions as [offset, text, whether the linker fills it in]."""
    functions, instructions = {}, []
    for line in lines:
        line = line.rstrip("\n")
        if found := FUNCTION.match(line):
            functions[int(found[1], 16)] = found[2]
        elif RELOCATION.match(line):
            instructions[-1][2] = True
        elif (found := INSTRUCTION.match(line)) and found[2]:
            instructions.append([int(found[1], 16), found[2], False])
    return functions, instructions


def starts(functions, instructions):
    """The offsets of the blocks."""
    blocks, begins = set(functions), False
    for offset, text, linked in instructions:
        if begins and not FILLER.match(text):
            blocks.add(offset)
            begins = False
        jump = JUMP.match(text)
        if jump and jump[2] and not linked:
            blocks.add(int(jump[2], 16))
        if jump or END.match(text):
            begins = True
    return sorted(blocks & {offset for offset, _, _ in instructions})


def main():
    functions, instructions = read(sys.stdin)
    blocks = starts(functions, instructions)
    names = sorted(functions)
    if not blocks or not any(functions[at] == "khl_receive" for at in names):
        sys.exit("blocks.py: no code of the card on standard input")
    print('#include "blocks.h"\n\nconst struct function card_functions[] = {')
    for at, end in zip(names, names[1:] + [1 << 32]):
        print('    {"%s", %d},' % (functions[at], sum(at <= block < end for block in blocks)))
    print("};\nconst size_t card_function_count = %d;\n\nconst uint32_t card_blocks[] = {" % len(names))
    for block in blocks:
        print("    %d," % block)
    print("};\nconst size_t card_block_count = %d;" % len(blocks))


main()
