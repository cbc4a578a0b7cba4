# Of the tables of several runs the table of their medians, cell by cell: of ratios, which have a point, with two decimals,
# of nanoseconds and of megabytes a second with none. Cells without a number and other lines are those of the first run.
function median(row, column,    r, s, low, kept, v) {
    for (r = 1; r <= runs; r++) v[r] = value[row, column, r]
    for (r = 1; r <= runs; r++) {
        low = r
        for (s = r + 1; s <= runs; s++) if (v[s] < v[low]) low = s
        kept = v[r]; v[r] = v[low]; v[low] = kept
    }
    return v[int((runs + 1) / 2)]
}
FNR == 1 { runs++ }
runs == 1 { line[FNR] = $0; lines = FNR }
/^\| [a-z0-9]+ \| (f64|f32|complex) \|/ {
    cells[FNR] = split($0, cell, "|")
    for (k = 4; k < cells[FNR]; k++) value[FNR, k, runs] = cell[k] + 0
}
END {
    for (i = 1; i <= lines; i++) {
        if (!(i in cells)) { print line[i]; continue }
        split(line[i], cell, "|")
        row = "|" cell[2] "|" cell[3] "|"
        for (k = 4; k < cells[i]; k++) {
            form = cell[k] ~ /\./ ? " %.2f |" : " %.0f |"
            row = row (cell[k] ~ /[0-9]/ ? sprintf(form, median(i, k)) : cell[k] "|")
        }
        print row
    }
}
