#!/bin/sh
# The exam office from the shell: examples/office.sh [the command curlew]
# Shows each command and what it prints. Works in a folder of its own, which it removes.
curlew=${1:-curlew}
case $curlew in */*) curlew=$(cd "$(dirname "$curlew")" && pwd)/$(basename "$curlew") ;; esac
scratch=$(mktemp -d) || exit 2
trap 'rm -rf "$scratch"' EXIT
cd "$scratch" || exit 2

# say COMMAND..: shows it as it would be typed, and runs it
say() {
    line='$ curlew'
    for word; do
        case $word in
            '' | *[!A-Za-z0-9.,/@-]*) line="$line '$word'" ;;
            *) line="$line $word" ;;
        esac
    done
    printf '\n%s\n' "$line"
    "$curlew" "$@" 2>&1
}

# The registrar's list, as a spreadsheet saves it. An empty cell is a leg that is not marked: it is no 0.
cat > list.csv << 'END'
number,name,written,oral,steno,strip
C00417,Ada Lind,61,0,88,1101101011
C00418,"Ferrer, Boas",47,52,,
C00419,Cem Aksoy,73,66,70,1111100000
C00420,Dora Weiss,55,,91,1111000010
C00421,Efe Aydin,,,,
C00422,Freya Holm,82,79,85,1111111111
C00423,Gil Baros,0,0,0,0000000000
C00424,Hana Novak,64,58,,
C00425,Ivo Marek,91,88,93,1111111101
C00426,Jona Berg,49,50,51,1010101010
END

# What stands where, with names: a line a field.
cat > marks.layout << 'END'
number  a6
name    A12
written Su   # of 100
oral    Su
steno   Su   # since last year
strip   b10
END

say layout --layout marks.layout

# Ten sheets, one after the other: legs that are not marked have their place in them.
say sheet write --csv --layout marks.layout list.csv -o list.sheets
say mean --layout marks.layout --legs written,oral,steno --fields number,name list.sheets
say sheet read --csv --layout marks.layout --fields number,written,oral,steno list.sheets

# Records have no place for a leg that is missing in the middle: the list is refused, and nothing is written.
say pack --csv --layout marks.layout list.csv -o list.rec
grep -v ',,' list.csv > whole.csv
say pack --csv --layout marks.layout whole.csv -o whole.rec
say read --csv --layout marks.layout whole.rec

# Another marker's copy of the file.
sed 's/Cem Aksoy,73,66/Cem Aksoy,73,68/' whole.csv > other.csv
say pack --csv --layout marks.layout other.csv -o other.rec
say compare --records --different --layout marks.layout whole.rec other.rec

# Last year's record has no third leg and no strip; this year's layout reads it.
say pack 'a6 A12 Su Su' C00390 'Kai Lund' 58 61 -o kai.rec
say read --layout marks.layout kai.rec
say show --layout marks.layout kai.rec

# The laptop died while saving.
say sheet write 'a6 A12 Su Su Su b10' C00420 'Dora Weiss' 55 @ 91 1111000010 -o dora.sheet
head -c 40 dora.sheet > cut.sheet
say sheet read cut.sheet
say sheet rescue 6 cut.sheet -o mended.sheet
say mean --legs 2-4 mended.sheet

# The partner college describes its records by a template of Perl.
say perl 'a6 a12 (n)3 b10'
exit 0
