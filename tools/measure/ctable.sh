#!/bin/sh
# Counts the instructions of programs on the inputs below, in millions. It needs valgrind, and takes about five minutes.
#
# usage: tools/measure/ctable.sh PROGRAM..
# A PROGRAM takes the arguments of ctable, which are a width and an arrangement. It reads and writes as ctable does. All programs
# have to write the same. The ratio of a program is the first program's instructions divided by its own. The folder
# tools/measure/original has such a program that uses the original.
set -eu
if [ $# -eq 0 ]; then
  sed -n 's/^# usage: //p' "$0" >&2
  exit 2
fi
. "$(dirname "$0")/inputs.sh"
. "$(dirname "$0")/counting.sh"
work=$(mktemp -d)
trap 'rm -rf "$work"' EXIT

# Prints a header and ROWS rows of COLUMNS cells with five words: shrinking ROWS COLUMNS. All words of a column have the same
# length. It is the average room for a column at the time when this column gets its width, minus 3. So each column shrinks if the
# width of the table is 23 * COLUMNS + 1.
shrinking() {
  awk -v rows="$1" -v columns="$2" '
    function drawn(count) { state = state * 16807 % 2147483647; return state % count }
    BEGIN {
      room = 20 * columns
      for (turn = 0; turn < columns; turn++) {
        length_at[turn] = int(room / (columns - turn)) - 3
        room -= length_at[turn]
      }
      state = 1
      letters = split("a b c d e f g h i j k l m n o p q r s t u v w x y z", letter, " ")
      for (row = 0; row <= rows; row++) {
        for (column = 0; column < columns; column++) {
          if (column > 0) printf "\t"
          for (word = 0; word < 5; word++) {
            if (word > 0) printf " "
            for (left = length_at[column]; left > 0; left--) printf letter[1 + drawn(letters)]
          }
        }
        print ""
      }
    }'
}

# Counts the instructions of programs on a file, with these arguments: count NAME ARGUMENTS PROGRAM..
count() {
  name=$1
  arguments=$2
  shift 2
  echo "$name${arguments:+, $arguments}"
  compare "$work/$name" "$arguments" 0 "$@"
}

short_cells 10000 6 cell > "$work/10,000 x 6 short cells"
short_cells 50000 4 cell > "$work/50,000 x 4 short cells"
short_cells 1000 60 cell > "$work/1,000 x 60 short cells"
short_cells 100 100 cell > "$work/100 x 100 short cells"
short_cells 100000 4 "" > "$work/100,000 x 4 numbers"
awk 'BEGIN { for (row = 0; row <= 20000; row++) print "\t\t\t\t\t\t\t\t\t" }' > "$work/20,000 x 10 empty cells"
sentences 11 9 'a b c d e f g h i j k l m n o p q r s t u v w x y z' > "$work/sentences"
sentences 6 6 '年 快 乐 新 春 节 日 本 語 漢 字 仮 名 交 文 表 計 算 機 時 間 東 京 大' > "$work/wide sentences"
texts '36 年 快 乐 新 あ い う え 한 글 ✅ 🚀/5 é ê ó ô n/19 a b c d e f g h i j k l m n o p q r s t u v w x y z' > "$work/mixed"
texts '1 ก ข ค ง จ ด ต น บ ป ม ย ร ล ว ส ห อ า ำ เ แ ไ กี นุ ม่ ร้ ล็' > "$work/Thai"
texts '1 क ख ग च ज त द न प म य र ल स का कि की कु के को क्ष त्र ज्ञ स्त' > "$work/Devanagari"
# The letter lam is left out, because the original doesn't join it with an alef after it.
texts '1 ا م ن ب ت ي و ر س د ع ه ك ف ق ح ج ش' > "$work/Arabic"
texts '1 א ב ג ד ה ו ז ח ט י כ ל מ נ ס ע פ צ ק ר ש ת' > "$work/Hebrew"
texts '1 a ă â b c d đ e ê g h i n o ô ơ t u ư ạ ấ ề ộ ữ' > "$work/Vietnamese"
texts '1 a ă â b c d e ê g h i n o ô ơ t u ư ạ ấ ề' > "$work/Vietnamese in marks"
texts '1 а б в г д е ж з и й к л м н о п р с т у ф х ц ч ш щ ы э ю я' > "$work/Cyrillic"
shrinking 200 24 > "$work/24 columns"
shrinking 50 200 > "$work/200 columns"
awk 'BEGIN { for (row = 0; row < 2; row++) for (column = 0; column < 7000; column++) printf "some words%s", column < 6999 ? "\t" : "\n" }' > "$work/7,000 columns"

for name in '10,000 x 6 short cells' '50,000 x 4 short cells' '1,000 x 60 short cells' '100,000 x 4 numbers' '20,000 x 10 empty cells' sentences 'wide sentences'; do
  count "$name" '' "$@"
done
for arguments in '120 dynamic' '97 full' '145 full' '265 full'; do
  count sentences "$arguments" "$@"
  count 'wide sentences' "$arguments" "$@"
done
for name in mixed Thai Devanagari Arabic Hebrew Vietnamese 'Vietnamese in marks' Cyrillic; do
  count "$name" '' "$@"
  count "$name" '120 dynamic' "$@"
done
count '100 x 100 short cells' '200 dynamic' "$@"
count '24 columns' '553 dynamic' "$@"
count '200 columns' '4601 dynamic' "$@"
count '7,000 columns' '63001 dynamic' "$@"
