# Prints the public items of a file of Rust, one a line behind the file's name, in the file's order: a method as Type::method, what a module holds as module::name, an
# implementation as `Trait for Type`, a re-export as `use path`. What stands between two braces or semicolons is a head; it is an item's where each brace around it
# opened a public module, a public trait or the methods of a type.

function item(name) {
    print file "\t" name
}

# the word behind the head's keyword
function name(head) {
    sub(/^.*pub (mod|trait|fn|struct|enum|type|const|static) /, "", head)
    sub(/^fn /, "", head)
    sub(/[^A-Za-z0-9_].*$/, "", head)
    return head
}

# tells the item that a head declares, and gives what its brace opens: what stands before the names inside, or "-" where nothing inside is an item
function opened(head, around) {
    gsub(/^[ \t]+|[ \t]+$/, "", head)
    if (around == "-") return "-"
    if (head ~ /^impl/) {
        sub(/^impl(<[^>]*>)? */, "", head)
        if (head !~ / for /) return head "::"
        item(head)
        return "-"
    }
    if (head ~ /^pub use /) {
        item("use " substr(head, 9))
        return "-"
    }
    if (head ~ /^pub (mod|trait|fn|struct|enum|type|const|static) / || head ~ /[(]pub static / || (head ~ /^fn / && around in traits)) {
        item(around name(head))
        if (head ~ /^pub trait /) traits[around name(head) "::"]
        if (head ~ /^pub (mod|trait) /) return around name(head) "::"
    }
    return "-"
}

{ text = text " " $0 }

END {
    before[0] = ""
    while (match(text, /[{};]/)) {
        mark = substr(text, RSTART, 1)
        inside = opened(substr(text, 1, RSTART - 1), before[depth + 0])
        text = substr(text, RSTART + 1)
        if (mark == "{") before[++depth] = inside
        if (mark == "}") depth--
    }
}
