# SPDX-License-Identifier: Apache-2.0 OR BSD-3-Clause
# Makes a man page from Markdown, which begins with a name, a colon and a description.
BEGIN { printf ".TH %s %s \"\" \"divsharun %s\"\n.SH NAME\n", name, section, version }
{ gsub(/\\/, "\\e"); is_code = /^    / }
is_code != in_code { print(is_code ? ".PP\n.nf" : ".fi"); in_code = is_code }
is_code { print; next }
NR == 1 { sub(name ": ", name " \\- ") }
/^\|-/ { next }
/^\|/ {
    count = split(substr($0, 3, length($0) - 4), cells, " [|] ")
    $0 = in_table ? ".TP\n" cells[1] "\n" cells[2] (count > 2 ? ": " cells[3] : "") : ".SH " toupper(cells[1])
    in_table = 1
}
/^$/ { in_table = 0; $0 = described++ ? ".PP" : ".SH SYNOPSIS\n.nf\n" synopsis "\n.fi\n.SH DESCRIPTION" }
match($0, /^[A-Z][a-z]+\. /) { $0 = ".SH " toupper(substr($0, 1, RLENGTH - 2)) "\n" substr($0, RLENGTH + 1) }
{ sub(/^- /, ".IP \\(bu 2\n"); sub(/^ +/, ""); gsub(/`[^`]*`/, "\\fB&\\fR"); gsub(/`/, ""); print }
