# Turns a command trace as DRAM power tools write it, a line `cycle,command,bank` for each command, into lines for `bench`.
#
#     awk -f examples/from-csv.awk TRACE.csv
#     awk -v rank=1 -f examples/from-csv.awk TRACE.csv      for a rank other than 0
#
# The opening is not in such a file: put an `open` line before what comes out. The cycles are taken as they are. Power tools count
# DRAM cycles, so that the ratio of the opening is 1.
#
#     ACT RD WR          the same
#     PRE PREA           PREPB PREAB
#     REF REFA REFB      REFAB REFAB REFPB
#     RDA WRA            RD WR; the precharge in them is not checked, and a comment says so. The bank counts as open until a PRE or
#                        PREA closes it: an ACT of it before that is refused with 12
#     END NOP            nothing
#     any other          a comment that says what was left out (power-down, self-refresh)

BEGIN {
    FS = ","
    if (rank == "") rank = 0
    kind["ACT"] = "ACT"; kind["RD"] = "RD"; kind["WR"] = "WR"; kind["RDA"] = "RD"; kind["WRA"] = "WR"
    kind["PRE"] = "PREPB"; kind["PREPB"] = "PREPB"; kind["PREA"] = "PREAB"; kind["PREAB"] = "PREAB"
    kind["REF"] = "REFAB"; kind["REFA"] = "REFAB"; kind["REFAB"] = "REFAB"; kind["REFB"] = "REFPB"; kind["REFPB"] = "REFPB"
}

{
    gsub(/[ \t\r]/, "")
    name = toupper($2)
}

$0 == "" || name == "END" || name == "NOP" { next }

# A heading, or a command that the bench does not know.
$1 !~ /^[0-9]+$/ || !(name in kind) { print "# left out: " $0; next }

name == "RDA" || name == "WRA" { print "# " name ": its precharge is not checked; bank " $3 " counts as open" }

kind[name] == "PREAB" || kind[name] == "REFAB" { $3 = 0 }

{ print "offer " kind[name] " " rank " " $3 " " $1 }
