# The rcfiles that are examples in manual pages, for scripts that source this file after common.bash.

# write_page_rcfiles: makes the directory rcs with a file for each display that has a colon line. Its name is the page and
# the title above the display.
write_page_rcfiles() {
    local page
    mkdir rcs
    for page in procmail.1 procmailrc.5 procmailsc.5 procmailex.5; do
        awk -v page="$page" '
            /^\.S[hs] / { title = substr($0, 5); count = 0 }
            /^\.Bd -literal/ { inside = 1; text = ""; next }
            /^\.Ed/ && inside {
                inside = 0
                if (text ~ /(^|\n) *:0/ && text !~ /\[flags\]/ && text !~ /^[$] /) {
                    count++
                    file = page " " title (count > 1 ? " " count : "")
                    gsub(/ /, "_", file)
                    printf "%s", text > ("rcs/" file)
                    close("rcs/" file)
                }
            }
            inside { text = text $0 "\n" }' "$top/man/$page"
    done
    sed -i 's/\\(ha/^/g; s/\\(ti/~/g; s/\\(ga/`/g; s/\\-/-/g; s/\\&//g; s/\\e/\\/g' rcs/*
    sed -i "s/\\\\(aq/'/g; s/\\\\(dq/\"/g" rcs/*
}
