# What the cases of the tools that read dreplay-data's lines share.

# An entry: the place of its aggregation, its name, its function, its key and its value, in JSON.
entry() { printf '{"kind":"entry","aggregation":%s,"name":"%s","function":"%s","key":[%s],"value":%s}\n' "$@"; }
text() { printf '{"kind":"text","firing":0,"text":"%s"}\n' "$1"; }

# The answer whose texts and entries are given.
answer() {
    echo '{"format":"dreplay-data","version":1}'
    cat
    echo '{"kind":"end","exit":null,"firings":9}'
}
