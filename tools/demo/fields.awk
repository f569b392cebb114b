# The fields of each record line that the printer prints, one a line.
function digit(c) { return index("0123456789abcdef", c) - 1 }

# The number at byte `at` of the record: seven bits a byte, lowest first, the top bit where another follows. Moves `at` on.
function number(    v, unit, byte) {
    v = 0; unit = 1
    do {
        byte = 16 * digit(substr(line, 2 * at + 1, 1)) + digit(substr(line, 2 * at + 2, 1))
        v += (byte % 128) * unit; unit *= 128; at++
    } while (byte >= 128)
    return v
}
function signed(    v) { v = number(); return v % 2 ? -(v + 1) / 2 : v / 2 }
function show(name, value) { printf "    %-12s %s\n", name, value }
function levels(name, n,    i, text) {
    for (i = 0; i < n; i++) text = text " " signed()
    show(name, substr(text, 2))
}
BEGIN {
    split("1 2 2 4 8 8 16", partitions)
    split("16 x 16|8 x 16|16 x 8|8 x 8|4 x 8|8 x 4|4 x 4", sizes, "|")
    split("full half third", precisions)
}
/^(bits|refused) / { print; next }
{
    print; line = $0; at = 0
    show("column", number()); show("row", number()); mode = number()
    if (mode == 0) { show("mode", "0, skip: copied"); next }
    show("mode", mode ", partitions of " sizes[mode])
    show("precision", precisions[number() + 1]); show("clipped", number())
    for (i = 0; i < partitions[mode]; i++) { x = signed(); show("vector", x ", " signed() " sixths") }
    pattern = number(); show("pattern", pattern); show("quantiser", number())
    for (q = 0; q < 4; q++)
        if (int(pattern / 2 ^ q) % 2)
            for (b = 0; b < 4; b++) levels("luma " q "." b, 16)
    class = int(pattern / 16)
    if (class > 0) { levels("Cb DC", 4); levels("Cr DC", 4) }
    if (class > 1) for (b = 0; b < 8; b++) levels((b < 4 ? "Cb " : "Cr ") b % 4, 15)
}
