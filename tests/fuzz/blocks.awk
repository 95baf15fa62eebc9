# Reads the names of functions from the first file and a disassembly by `objdump -d --no-show-raw-insn` from the second; prints the addresses of those
# functions' blocks: a function's first instruction, the targets of its jumps, and the instructions after jumps and returns.
NR == FNR { wanted[$1] = 1; next }

# The line that names a function: 0000000000401230 <chain::claim_chain>:
/^[0-9a-f]+ <.*>:$/ {
    name = $2
    gsub(/^<|>:$/, "", name)
    inside = name in wanted
    starts_block = inside
    next
}

# An instruction:   401234:	jne    401250 <chain::claim_chain+0x20>
inside && /^ *[0-9a-f]+:\t/ {
    address = $1
    sub(/:$/, "", address)
    is_padding = $0 ~ /\t(nop|cs nop|data16|xchg +%ax,%ax|int3)/
    known[address] = !is_padding
    if (starts_block) blocks[address] = 1
    starts_block = $2 ~ /^(j|ret)/ || (starts_block && is_padding)
    if ($2 ~ /^j/ && $3 ~ /^[0-9a-f]+$/) blocks[$3] = 1
}

END { for (address in blocks) if (known[address]) print address }
