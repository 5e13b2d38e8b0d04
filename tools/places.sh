#!/bin/sh
# Counts the places in crates/*/src that could be written as today's Rattle allows.
# usage: sh tools/places.sh [POINT] [FOLDER]
# With a point, 1 to 7, each of its places is a line `file:line: text`. With point 8 a line for each crate:
# goals that proofs/ answers, other definitions beside those answers, lines of proofs.
# Without a point the count of each. FOLDER is the top of the repository, where no other is named.
# It reads text, laid out by `rt fmt`, and no types: each pattern says what it can't tell apart.

point=
case "${1-}" in [1-8]) point=$1 ;; esac
case "${1-none}" in [1-8] | '') shift ;; esac
cd "${1:-.}" || exit 1
[ -d crates ] || { echo "places.sh: no folder crates/ in $(pwd)" >&2; exit 1; }

# Every source file, those of tests and programs too.
files() { find crates/*/src -name '*.rt' | sort; }

lines() { grep -n "$@" $(files) /dev/null | sed 's/^\([^:]*:[0-9]*\): */\1: /'; }

# One line for each function that has a body: file, line, 1 in a test, name, head, clauses, body.
# Clauses are parted by ASCII 2, lines of the body by ASCII 1.
units() {
    awk '
        function trimmed(s) { sub(/^ +/, "", s); return s }
        function depth(s) { match(s, /^ */); return RLENGTH }
        function done() {
            printf "%s\t%d\t%d\t%s\t%s\t%s\t%s\n", FILENAME, at, test, name, head, clauses, body
            mode = 0; test = 0
        }
        FNR == 1 { mode = 0; test = 0 }
        /^ *#\[test\]/ { test = 1 }
        !mode && /^ *(pub(\([a-z]+\))? )?fn [a-z_0-9]+/ {
            mode = 1; at = FNR; ind = depth($0); head = ""; clauses = ""; body = ""
            name = trimmed($0); sub(/^(pub(\([a-z]+\))? )?fn /, "", name); sub(/[^a-z_0-9].*/, "", name)
        }
        mode == 1 {
            t = trimmed($0)
            if (t == "{") { mode = 2; next }
            if (t == "{}") { done(); next }
            if (t ~ /^(requires|ensures) /) { clauses = clauses (clauses == "" ? "" : "\002") t }
            else { head = head (head == "" ? "" : " ") t }
            if (t ~ /;$/) { mode = 0; test = 0; next }
            if (t ~ / \{$/) { mode = 2 }
            next
        }
        mode == 2 {
            if (depth($0) == ind && trimmed($0) == "}") { done(); next }
            body = body (body == "" ? "" : "\001") $0
        }
    ' $(files)
}

# Point 1: own Option or Result, flags beside values, numbers for kinds and refusals.
point_1() {
    # Functions that always answer one value: a literal, or a clause that says the result is true.
    # It can't tell a number that says nothing from a constant that someone asks for.
    units | awk -F '\t' '!$3 && ($7 ~ /^ *([0-9]+|true|false)$/ || $6 ~ /result ≡ true \}/) && $5 ~ /-> (u8|bool)/ { print $1 ":" $2 ": fn " $4 ": always one answer" }'
    # Functions that change something and answer yes or no. It can't tell a refusal from a question.
    units | awk -F '\t' '!$3 && $5 ~ /&mut / && $5 ~ /-> bool/ { print $1 ":" $2 ": fn " $4 ": yes or no" }'
    # Refusals as numbers.
    lines -E 'fn (number|numbered)\('
    # Results whose error is a bare number or nothing.
    lines -E 'Result<[^{]*, (usize|u8|u16|u32|u64|\(\))>( *\{)?$'
    # Faults as options, where none is good: a Result the other way round.
    lines -E 'Option<[A-Za-z]*Fault>'
    # A field that is a flag beside other fields; no set of yes and no.
    lines -E '^ +(pub(\([a-z]+\))? )?[a-z_]+: bool,$'
    # Matches with an arm that only hands none or a fault on. It can't tell those that map from those with three ways.
    awk '
        FNR == 1 { hit = -1 }
        /^ +((.* \| )?None|Ok\(_\)|Ok\(\(\)\)) => (None|false|true|0|Some\(.*\)|Err\(.*\)|Ok\(\(\)\)),$/ || /^ +Err\([a-z]+\) => (return )?(None|Err\(.*\)|Some\(.*\)),$/ {
            if (hit != FNR - 1) { t = $0; sub(/^ */, "", t); print FILENAME ":" FNR ": " t }
            hit = FNR
        }
    ' $(files)
    # `let Some(..) = .. else` that only answers none, no or an error.
    awk '
        FNR == 1 { open = 0 }
        /^ *let Some\(/ { open = FNR; text = $0; sub(/^ */, "", text) }
        was ~ /else \{$/ && open && FNR - open < 6 && /^ *return (None|false|Err\()/ { print FILENAME ":" open ": " text; open = 0 }
        { was = $0 }
        /;$/ && !/else \{$/ { open = 0 }
    ' $(files)
    # `if .. { Some(x) } else { None }` and the same turned round, but where Some holds a cell of an array (point 6).
    awk '
        FNR == 1 { a = ""; b = ""; c = "" }
        /^ *None$/ && a ~ /\} else \{$/ && b ~ /^ *Some\(/ && b !~ /\[/ && c !~ /else if/ { print FILENAME ":" FNR - 2 ": " trim(b) " else None" }
        /^ *Some\(/ && a ~ /\} else \{$/ && b ~ /^ *None$/ { print FILENAME ":" FNR ": " trim($0) " else None" }
        function trim(s) { sub(/^ */, "", s); return s }
        { c = b; b = a; a = $0 }
    ' $(files)
    # Functions that throw results away, each once.
    units | awk -F '\t' '$7 ~ /let _ = / { print $1 ":" $2 ": fn " $4 ": throws results away" }'
}

# Point 2: twins.
point_2() {
    # Functions whose bodies are the same once each name is one letter and each number another, at least twelve marks; or
    # the same once what a call is given and `not` are left out as well, but methods keep their names, at least seven marks.
    # It can't tell a shape that two meanings share from a twin, and misses twins of which one has a line more.
    units | awk -F '\t' '
        function shape(s, loose,   out, n, k, t, skip, was, old) {
            out = ""; n = 0; k = 0; skip = 0; was = ""; old = ""
            gsub("\001", " ", s)
            while (s != "") {
                if (match(s, /^ +/)) { s = substr(s, RLENGTH + 1); continue }
                if (match(s, /^b?"[^"]*"/)) { t = "t" }
                else if (match(s, /^[A-Za-z_][A-Za-z_0-9]*/)) {
                    t = substr(s, 1, RLENGTH)
                    if (t !~ /^(let|mut|if|else|for|in|while|match|return|as|Some|None|Ok|Err|true|false)$/ && !(loose && was == "." && substr(s, RLENGTH + 1, 1) == "(")) t = "a"
                }
                else if (match(s, /^[0-9][0-9a-zA-Z_]*/)) { t = "n" }
                else { RLENGTH = 1; t = substr(s, 1, 1) }
                s = substr(s, RLENGTH + 1); n++
                if (skip) { if (t == "(") skip++; if (t == ")") skip--; continue }
                if (loose && t == "(" && (was == "a" || old == ".")) { skip = 1; out = out "()"; k++; continue }
                if (!(loose && t == "!")) { out = out " " t; k++ }
                old = was; was = t
            }
            return (loose ? k >= 7 : n >= 12) ? out : ""
        }
        !$3 { where[NR] = $1 ":" $2 ": fn " $4
              for (l = 0; l < 2; l++) { k = shape($7, l); if (k != "") { seen[l k]++; of[l, NR] = l k } } }
        END { for (i = 1; i <= NR; i++) { n = 0
                for (l = 0; l < 2; l++) if ((l, i) in of && seen[of[l, i]] > n) n = seen[of[l, i]]
                if (n > 1) print where[i] ": one of " n " of this shape" } }
    '
    # Free functions with one name in two files; not main, and not those that take self.
    units | awk -F '\t' '!$3 && $4 != "main" && $5 !~ /\(&?(mut )?self/ && $5 !~ /-> Self/ {
            if ($5 ~ /^(pub(\([a-z]+\))? )?fn (new|none|empty|of|root|known|one|fmt|standstill|built_in|of_call)[(<]/) next
            if (!(($4, $1) in had)) { had[$4, $1] = 1; n[$4]++ }
            name[NR] = $4; where[NR] = $1 ":" $2 ": fn " $4 }
        END { for (i in name) if (n[name[i]] > 1) print where[i] ": name in " n[name[i]] " files" }'
    # Constants with one name in two files, whatever they say.
    awk '/^ *(pub(\([a-z]+\))? )?const [A-Z_]+:/ { t = $0; sub(/^ */, "", t); k = t; sub(/^(pub(\([a-z]+\))? )?const /, "", k); sub(/:.*/, "", k)
            name[NR] = k; n[k]++; where[NR] = FILENAME ":" FNR ": " t }
        END { for (i in name) if (n[name[i]] > 1) print where[i] }' $(files)
    # Limits written as a number where a constant says the same. It can't tell two limits that happen to be equal.
    lines -E '((\[[a-zA-Z0-9<>]+; | (<|>|<=|>=|==) |\.\.)(4|16|64|96|1024)(u8)?)([^0-9_]|$)' | grep -v -E '_tests/|ghost|requires|ensures|const '
}

# Point 3: loops that count, find or fold by hand.
point_3() {
    # Loops over numbers, with a place beside each item, or by a test; not those that do a thing so many times, a number,
    # and no chain. It can't tell a number that is counted from one that is only passed on.
    lines -E '^ *(for .* in (\(?[a-z0-9_]+\.\.|.*\.enumerate\(\))|while |loop )' | grep -v -E 'for _ in 0\.\.[0-9]+ |\.zip\('
    # Loops over items that answer from within, or add up.
    awk '
        function depth(s) { match(s, /^ */); return RLENGTH }
        FNR == 1 { on = 0 }
        on && depth($0) == ind && /^ *\}$/ { on = 0 }
        on && (/return (true|false|Some\(|None|Err\()/ || / \+= /) { print FILENAME ":" at ": " text; on = 0 }
        /^ *for / { on = 1; at = FNR; ind = depth($0); text = $0; sub(/^ */, "", text) }
    ' $(files)
}

# Point 4: equality, order, copying, conversion and printing by hand.
point_4() {
    # Functions that only compare two things. It can't tell a name for a question from equality by hand.
    units | awk -F '\t' '!$3 && $5 ~ /-> bool/ && $7 !~ /\001/ && $7 ~ /^ *[^=!<>&|]+ == [^=&|]+$/ { print $1 ":" $2 ": fn " $4 ": compares" }'
    # A value between two ends, by two comparisons.
    lines '<= \([a-z]*\) && \1 <'
    # Conversions by a function of one's own.
    lines -E 'fn (of|number|numbered)\('
    # Casts, a line each; those that widen and those that narrow.
    lines -E ' as (u8|u16|u32|u64|usize)([^0-9a-z]|$)'
    # Yes and no as 1 and 0.
    lines -E 'if .* \{ 1 \} else \{ 0 \}'
    # Printing: functions that spell or tell a value, and matches that give each variant its text.
    units | awk -F '\t' '!$3 && $4 ~ /^(spell|tell|degrees)/ && $5 ~ /(io|fmt)::Result/ { print $1 ":" $2 ": fn " $4 ": prints" }'
    awk 'FNR == 1 { was = "" } /^ +[A-Za-z]+::[A-Z][A-Za-z]* => "/ && was !~ / => "/ { t = $0; sub(/^ */, "", t); print FILENAME ":" FNR ": " t } { was = $0 }' $(files)
    # Equality without Eq.
    grep -n 'derive(.*PartialEq' $(files) /dev/null | grep -v '[( ]Eq[,)]' | sed 's/^\([^:]*:[0-9]*\):/\1: /'
}

# Point 5: facts that stand in many contracts, parameters that travel together.
point_5() {
    # Functions with a requirement, or with a clause on the result's bounds, that stands in three or more functions word
    # for word. It can't tell names apart that mean the same, so `few { arity ≤ 4 }` and `{ arity ≤ 4 }` are one fact.
    units | awk -F '\t' '$6 != "" {
            m = split($6, c, "\002")
            for (j = 1; j <= m; j++) {
                if (c[j] !~ /^requires/ && c[j] !~ /^ensures within/) continue
                t = c[j]; sub(/^[a-z]+ ([a-z_]+ )?\{ /, "", t); sub(/ \}[;]?$/, "", t)
                sub(/^(symbol|function|rule) </, "it <", t)
                if (!((t, NR) in had)) { had[t, NR] = 1; n[t]++; k++; fact[k] = t; where[k] = $1 ":" $2 ": fn " $4 }
            } }
        END { for (i = 1; i <= k; i++) if (n[fact[i]] > 2) print where[i] ": " fact[i] " (in " n[fact[i]] ")" }'
    # Functions with two parameters, of one name and type, that stand together in three or more functions of the crate,
    # where one of them has the other beside it in all but one function at most; no handle, and no operand of one letter.
    # It can't tell what belongs together from what only meets often.
    units | awk -F '\t' '!$3 {
            p = $5; if (p !~ /\(/) next
            sub(/^[^(]*\(/, "", p); sub(/^crate\) fn [a-z_0-9]+(<[^>]*>)?\(/, "", p); sub(/\)( ->.*| *\{)?$/, "", p); sub(/\) -> .*$/, "", p)
            gsub(/, *$/, "", p)
            crate = $1; sub(/^crates\//, "", crate); sub(/\/.*/, "", crate)
            m = split(p, q, ", "); z = 0
            for (j = 1; j <= m; j++) { gsub(/^ +| +$/, "", q[j]); if (q[j] ~ /^[a-z_][a-z_]+: / && q[j] !~ /^rt: /) { z++; w[z] = q[j] } }
            u++; where[u] = $1 ":" $2 ": fn " $4; of[u] = crate; num[u] = z
            for (j = 1; j <= z; j++) { par[u, j] = w[j]; one[crate, w[j]]++
                for (l = 1; l <= z; l++) if (w[j] < w[l]) n[crate, w[j], w[l]]++ } }
        END { for (i = 1; i <= u; i++) { best = 0
                for (j = 1; j <= num[i]; j++) for (l = 1; l <= num[i]; l++)
                    if (par[i, j] < par[i, l]) {
                        both = n[of[i], par[i, j], par[i, l]]
                        if (both > best && (both >= one[of[i], par[i, j]] - 1 || both >= one[of[i], par[i, l]] - 1)) { best = both; text = par[i, j] ", " par[i, l] }
                    }
                if (best > 2) print where[i] ": " text " (in " best ")" } }'
}

# Point 6: fixed buffers with a length beside, parallel arrays, searches by hand, arenas of indices.
point_6() {
    # Fields that are arrays, whether their length stands beside or another array is as long; names for array types.
    awk '
        FNR == 1 { on = 0 }
        /^(pub(\([a-z]+\))? )?struct / { on = 1 }
        /^\}/ { on = 0 }
        on && /: \[.*; [A-Z_0-9]+\],$/ { t = $0; sub(/^ */, "", t); print FILENAME ":" FNR ": " t }
    ' $(files)
    lines -E '^(pub(\([a-z]+\))? )?type [A-Za-z]+ = \['
    # Arrays of a fixed length that a function takes or answers.
    units | awk -F '\t' '!$3 && $1 !~ /_tests\// && $5 ~ /(: &?(mut )?|-> |Result<)\[[A-Za-z0-9<>]+; [A-Z_0-9]+\]/ { print $1 ":" $2 ": fn " $4 ": array of a fixed length" }'
    # A cell taken after a test of the place: `get` by hand.
    awk '
        FNR == 1 { a = ""; b = "" }
        a ~ /^ *if [a-z]+ < .*\{$/ && /^ *(Some\()?&?[a-z._]+\[[a-z]+\]\)?$/ { print FILENAME ":" FNR - 1 ": " trim(a) }
        /^ *return None;$/ && a ~ /^ *if [a-z]+ >= self\.[a-z_]+ \{$/ { print FILENAME ":" FNR - 1 ": " trim(a) }
        function trim(s) { sub(/^ */, "", s); return s }
        { b = a; a = $0 }
    ' $(files)
    # Places as answers of a search through an array that numbers something.
    lines -E 'return Some\(i as u8\)'
    # Links: places of other nodes, in structs, enums and parameters.
    awk '
        FNR == 1 { on = 0 }
        /^(pub(\([a-z]+\))? )?(struct|enum) / { on = 1 }
        /^\}/ { on = 0 }
        on && /Option<usize>[,)]/ && !/\[/ { t = $0; sub(/^ */, "", t); print FILENAME ":" FNR ": " t }
        /^ +[a-z]+: Option<usize>,$/ && !on { t = $0; sub(/^ */, "", t); print FILENAME ":" FNR ": " t }
    ' $(files)
    # A start and a length for a part of something else.
    lines -E '(^ +(pub )?|[(, ])start: usize,' | grep -v 'due\.rt'
}

# Point 7: switches on which step to run, tables of functions.
point_7() {
    # Tables of functions, boxed and borrowed ones.
    lines -E '(^|[^a-z_])dyn |[:<[] *fn\('
    # Matches with two arms or more that each call a function, no constructor and no macro; the line of the first such arm.
    awk '
        function depth(s) { match(s, /^ */); return RLENGTH }
        FNR == 1 { top = 0 }
        /(^|[ (=])match .*\{$/ { top++; ind[top] = depth($0); calls[top] = 0; first[top] = "" }
        top && depth($0) == ind[top] + 4 && / => (return )?[a-z_.]+\(/ { calls[top]++; if (calls[top] == 1) { t = $0; sub(/^ */, "", t); first[top] = FILENAME ":" FNR ": " t } }
        top && depth($0) == ind[top] && /^ *\}/ { if (calls[top] > 1) print first[top]; top-- }
    ' $(files)
    # Branches on a number or a variant with a call of another function on each side.
    awk '
        FNR == 1 { a = ""; b = ""; c = "" }
        /^ *(self\.)?[a-z_]+\(.*\)$/ && a ~ /\} else \{$/ && b ~ /^ *(self\.)?[a-z_]+\(.*\)$/ && c ~ /^ *if .* (==|<|>) / { t = c; sub(/^ */, "", t); print FILENAME ":" FNR - 3 ": " t }
        { c = b; b = a; a = $0 }
    ' $(files)
}

# Point 8: what proofs/ answers by hand.
point_8() {
    for crate in crates/*/; do
        name=$(basename "$crate")
        [ -d "$crate/proofs" ] || continue
        answers=$(find "$crate/proofs" -name Answers.antt -exec cat {} + | grep -c -E '^(abbrev )?(pub )?[^ ]+ : goal\.')
        others=$(find "$crate/proofs" -name Answers.antt -exec cat {} + | grep -E '^[^ }-][^=]* : ' | grep -v -c -E '^(abbrev )?(pub )?[^ ]+ : goal\.')
        size=$(find "$crate/proofs" -name '*.antt' -exec cat {} + | wc -l)
        echo "$name: $answers answers, $others beside them, $((size)) lines"
    done
}

ordered() { sort -t: -k1,1 -k2,2n | awk -F: '!(($1, $2) in had) { had[$1, $2] = 1; print }'; }

if [ "$point" = 8 ]; then
    point_8
elif [ -n "$point" ]; then
    "point_$point" | ordered
else
    for n in 1 2 3 4 5 6 7; do
        echo "point $n: $("point_$n" | ordered | wc -l | tr -d ' ') places"
    done
    point_8 | awk '{ a += $2; b += $4; c += $7 } END { print "point 8: " a " answers, " b " beside them, " c " lines of proofs" }'
fi
