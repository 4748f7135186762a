# Plays a printed plan on its map: every crossing legal where it stands, every carrier at its goal at the end, the cost the count of crossings.
# awk -f tests/plays.awk MAP SCENARIO PRINT: says the first thing that is wrong, and nothing if all is well.
BEGIN { bays = 0; carriers = 0; crossings = 0 }
function wrong(what) { if (!failed) print what; failed = 1; exit 1 }
function bay(x, y) { return number[y * width + x] }
function number_of(word) { return substr(word, 2) + 0 }
FNR == 1 { file++ }
file == 1 && FNR == 3 { width = $2 }
file == 1 && FNR > 4 { for (i = 1; i <= width; i++) if (substr($0, i, 1) ~ /[.G]/) { cell[bays] = (FNR - 5) * width + i - 1; number[cell[bays]] = bays; bays++ } }
file == 2 && FNR > 1 { split($0, f, "\t"); at[carriers] = bay(f[5], f[6]); goal[carriers] = bay(f[7], f[8]); full[at[carriers]] = 1; carriers++ }
file == 3 && /^\(move c[0-9]+ b[0-9]+ b[0-9]+\)$/ && !cost {
  gsub(/[()]/, "")
  c = number_of($2); from = number_of($3); to = number_of($4)
  if (c >= carriers || at[c] != from) wrong("line " FNR ": the carrier does not stand there")
  if (to >= bays) wrong("line " FNR ": no such bay")
  apart = cell[from] - cell[to]; if (apart < 0) apart = -apart
  if (!(apart == width || apart == 1 && int(cell[from] / width) == int(cell[to] / width))) wrong("line " FNR ": no rail")
  if (to in full) wrong("line " FNR ": the bay is taken")
  delete full[from]; full[to] = 1; at[c] = to; crossings++
  next
}
file == 3 { if (cost || $0 != "; cost = " crossings + 0 " (unit cost)") wrong("line " FNR ": " $0); cost = 1 }
END {
  if (failed) exit 1
  if (!cost) wrong("no cost")
  for (c = 0; c < carriers; c++) if (at[c] != goal[c]) wrong("carrier " c " is not home")
}
