# A line for each record of a web log: its fields where each of them is well, else that it is faulty.
function who(name) { return name == "-" ? "none" : "id" }
{
    last = first + length($0)
    ok = match($0, /^([0-9]{1,3})\.([0-9]{1,3})\.([0-9]{1,3})\.([0-9]{1,3}) ([^ ]*) ([^ ]*) \[([^\]]*)\] "(GET|PUT|POST|HEAD|DELETE|LINK|UNLINK) ([^ ]*) HTTP\/([0-9]+)\.([0-9]+)" ([0-9][0-9][0-9]) ([0-9]+)$/, f)
    if (ok && f[1] < 256 && f[2] < 256 && f[3] < 256 && f[4] < 256 && f[10] < 256 && f[11] < 256 &&
        f[12] >= 100 && f[12] < 600 && f[13] < 4294967296) {
        printf "{\"class\":\"Ok\",\"faults\":[],\"nerr\":0,\"next\":%d,\"record\":%d,\"span\":[%d,%d],\"value\":{\"auth\":{\"%s\":\"%s\"},\"client\":\"%d.%d.%d.%d\",\"date\":\"%s\",\"length\":%d,\"remote\":{\"%s\":\"%s\"},\"request\":{\"meth\":\"%s\",\"uri\":\"%s\",\"version\":{\"major\":%d,\"minor\":%d}},\"response\":%d}}\n",
            last, NR - 1, first, last, who(f[6]), f[6], f[1], f[2], f[3], f[4], f[7], f[13], who(f[5]), f[5],
            f[8], f[9], f[10], f[11], f[12]
    } else {
        dirty = 1
        printf "{\"class\":\"Err\",\"record\":%d,\"span\":[%d,%d]}\n", NR - 1, first, last
    }
    first = last + 1
}
END { exit dirty }
