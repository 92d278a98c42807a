# Reads the list of the original's public items (file, tab, item), then docs/PORT-OTHER.md. There a section `## src/NAME` has a table of three columns: items of that file, in
# their order; where they stand here, as `crate/file.rt`: `name`, `name`; .. (a file of crates/crate/src, or with .rs a path from the root), as `crate/`, or not taken;
# and what changed. Routines and crates are looked for wherever they are named in this form.

function fault(what) {
    print "port: " what
    faults++
}

# the text of a file, "" where there is none
function text_of(path,    line) {
    if (!(path in texts)) {
        texts[path] = ""
        while ((getline line < path) > 0) texts[path] = texts[path] line "\n"
        close(path)
    }
    return texts[path]
}

# whether a file declares a name: a function or a type, Type.field or Type::Case
function declares(path, name,    text, part) {
    text = text_of(path)
    if (match(name, /[.]|::/)) {
        part = substr(name, RSTART + RLENGTH)
        name = substr(name, 1, RSTART - 1)
        if (!match(text, "(struct|enum) " name "(<[^>]*>)? [{]\n")) return 0
        text = substr(text, RSTART + RLENGTH)
        text = substr(text, 1, index(text, "\n}"))
        return ("\n" text) ~ ("\n +(pub )?" part "[:,( ]")
    }
    return ("\n" text) ~ ("\n *(pub([(][a-z]+[)])? )?((const )?fn|struct|enum|const|trait|type) " name "[^A-Za-z0-9_]")
}

# looks for the names behind each file that a text names, and for the crates, and gives what is left of the text
function looked_for(cell,    file, path, rest, name) {
    rest = ""
    while (match(cell, /`[a-z_0-9\/]+[.]r[ts]`: `/)) {
        rest = rest substr(cell, 1, RSTART - 1)
        file = substr(cell, RSTART + 1, RLENGTH - 5)
        cell = substr(cell, RSTART + RLENGTH - 1)
        path = file
        if (file ~ /[.]rt$/) {
            path = "crates/" file
            sub(/\/[a-z_0-9]+[.]rt$/, "/src&", path)
        }
        while (match(cell, /^(, )?`[^`]+`/)) {
            name = substr(cell, 1, RLENGTH)
            cell = substr(cell, RLENGTH + 1)
            gsub(/^, |`/, "", name)
            routines++
            if (!declares(path, name)) fault(where ": " path " has no `" name "`")
        }
    }
    rest = rest cell
    while (match(rest, /`[a-z_0-9]+\/`/)) {
        name = substr(rest, RSTART + 1, RLENGTH - 3)
        if (("\n" text_of("crates.txt")) !~ ("\n" name "( staticlib)?:")) fault(where ": there is no crate `" name "`")
        rest = substr(rest, 1, RSTART - 1) "," substr(rest, RSTART + RLENGTH)
    }
    return rest
}

# the items of a section's rows against the file's: all of them, no other, each behind the one before it
function hold(file,    i, name, last) {
    for (i = 1; i <= items[file]; i++) place[file, item[file, i]] = i
    for (i = 1; i <= told[file]; i++) {
        name = tells[file, i]
        has[file, name]
        if (!((file, name) in place)) fault("docs/PORT-OTHER.md has `" name "`, which is no public item of " file)
        else if (place[file, name] <= last) fault("docs/PORT-OTHER.md has `" name "` of " file " out of its order")
        else last = place[file, name]
    }
    for (i = 1; i <= items[file]; i++)
        if (!((file, item[file, i]) in has)) fault("docs/PORT-OTHER.md lacks `" item[file, i] "` of " file)
}

FILENAME == ARGV[1] {
    split($0, f, "\t")
    if (!(f[1] in items)) files[++count] = f[1]
    item[f[1], ++items[f[1]]] = f[2]
    total++
    next
}

/^## / {
    section = $2 ~ /^src\// ? $2 : ""
    if (section) sections[section]
}

{ where = "docs/PORT-OTHER.md:" FNR }

!section || !/^\|/ { looked_for($0) }

section && /^\|/ && !/^\|(---| item )/ {
    if (split($0, cell, "|") != 5) fault(where ": not three columns")
    while (match(cell[2], /`[^`]+`/)) {
        tells[section, ++told[section]] = substr(cell[2], RSTART + 1, RLENGTH - 2)
        cell[2] = substr(cell[2], RSTART + RLENGTH)
    }
    if (looked_for(cell[3]) !~ /^[ ;,]*(not taken)?[ ;,]*$/ || cell[3] ~ /^ *$/) fault(where ": the second column names no place here:" cell[3])
    looked_for(cell[4])
}

END {
    for (file in sections) if (total && !(file in items)) fault("the original has no public item in " file)
    for (i = 1; i <= count; i++) hold(files[i])
    print "port: " total + 0 " public items, " routines " places of routines, " faults + 0 " faults"
    exit (faults > 0)
}
