{
    trace = sprintf("%16s", $1); gsub(" ", "0", trace)
    to = $2 " " $3
    print $4, to, "begin", trace
    print $4, to, "point", $4, "-"
    if ($6 != "") print $4, to, "crumb", $6
    if ($7 != "") print $5, to, "crumb 0"
    print $5, to, "end"
    if ($7 != "") print $5, to, "trigger", $5, 1, trace
}
