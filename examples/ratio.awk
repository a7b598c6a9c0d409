# The table 'what the ratio costs', from the answers to ratio.trace: each gap in controller cycles at ratios 1, 2 and 4, and the DRAM
# cycles that it loses; a dash where no question names it. The requests and their answers come as two files.
#
#     rossinhiu bench < examples/ratio.trace | awk -f examples/ratio.awk examples/ratio.trace -
BEGIN {
    split("tRC tRRD tRCD tRAS tCCD tCCD_L tCCD_S tRDWR tRTP tWRRD tWRRD_L tWRRD_S tWRPRE tRPpb tRPab tPPD tRFCab tRFCpb tPBR2PBR tFAW", name, " ")
}
NR == FNR {
    if ($1 != "#" && NF)
        request[++requests] = $0
    next
}
{
    split(request[FNR], asked, " ")
    if (asked[1] == "open") {
        ratio = asked[2]
        for (i = 1; i <= 20; i++)
            if (asked[5 + i])
                gap[i] = asked[5 + i]
    }
    if ($1 == "ask") {
        rounded[ratio, $4] = $3 % 1000
        lost[ratio, $4] = $5
    }
}
END {
    print "| No. | Gap | DRAM cycles | ratio 1: cycles | lost | ratio 2: cycles | lost | ratio 4: cycles | lost |"
    print "|---|---|---|---|---|---|---|---|---|"
    for (i = 1; i <= 20; i++) {
        line = "| " i " | " name[i] " | " gap[i]
        for (r = 1; r <= 4; r *= 2)
            line = line ((r, i) in lost ? " | " rounded[r, i] " | " lost[r, i] : " | - | -")
        print line " |"
    }
}
