# Makes inputs of measurements, for the scripts that read this file.

# Prints a header and ROWS rows of CELLS cells, each with WORD and a number below 1,000: short_cells ROWS CELLS WORD.
short_cells() {
  awk -v rows="$1" -v cells="$2" -v word="$3" 'BEGIN {
    for (row = -1; row < rows; row++) {
      line = ""
      for (cell = 0; cell < cells; cell++) {
        text = row < 0 ? "col" cell : word ((row * 7 + cell * 13) % 1000)
        line = line (cell > 0 ? "\t" : "") text
      }
      print line
    }
  }'
}

# Prints a header and 2,000 rows of 6 sentences: sentences WORDS LONGEST LETTERS. Each sentence has WORDS words, and each word has
# 2 to LONGEST of the letters.
sentences() {
  awk -v words="$1" -v longest="$2" -v alphabet="$3" '
    function drawn(count) { state = state * 16807 % 2147483647; return state % count }
    BEGIN {
      state = 1
      letters = split(alphabet, letter, " ")
      for (row = 0; row <= 2000; row++) {
        for (word = 0; word < 6 * words; word++) {
          if (word > 0) printf (word % words ? " " : "\t")
          for (left = 2 + drawn(longest - 1); left > 0; left--) printf letter[1 + drawn(letters)]
        }
        print ""
      }
    }'
}

# Prints a header and 2,000 rows of 6 cells: texts ALPHABETS. Each cell has 10 to 60 letters, in words of 1 to 8 letters from one
# alphabet. Slashes separate the alphabets. Each alphabet begins with a number, its weight when an alphabet is chosen at random.
texts() {
  awk -v alphabets="$1" '
    function drawn(count) { state = state * 16807 % 2147483647; return state % count }
    BEGIN {
      state = 1
      kinds = split(alphabets, alphabet, "/")
      for (kind = 1; kind <= kinds; kind++) {
        letters[kind] = split(alphabet[kind], parts, " ") - 1
        sum += often[kind] = parts[1]
        for (place = 1; place <= letters[kind]; place++) letter[kind, place] = parts[place + 1]
      }
      for (row = 0; row <= 2000; row++) {
        for (cell = 0; cell < 6; cell++) {
          if (cell > 0) printf "\t"
          for (left = 10 + drawn(51); left > 0; left--) {
            kind = 1
            for (chosen = drawn(sum); chosen >= often[kind]; kind++) chosen -= often[kind]
            for (size = 1 + drawn(8); size > 0 && left > 0; size--) {
              printf letter[kind, 1 + drawn(letters[kind])]
              left--
            }
            if (left > 1) printf " "
          }
        }
        print ""
      }
    }'
}

# Prints a header and 10,000 rows of 6 sentences of six words. In every second cell, one word is between two escape sequences.
sentences_with_sequences() {
  awk '
    function drawn(count) { state = state * 16807 % 2147483647; return state % count }
    BEGIN {
      state = 1
      letters = split("a b c d e f g h i j k l m n o p q r s t u v w x y z", letter, " ")
      for (row = 0; row <= 10000; row++) {
        for (cell = 0; cell < 6; cell++) {
          if (cell > 0) printf "\t"
          coloured = (row + cell) % 2 ? 1 + drawn(6) : 0
          for (word = 1; word <= 6; word++) {
            if (word > 1) printf " "
            if (word == coloured) printf "\033[31m"
            for (left = 2 + drawn(8); left > 0; left--) printf letter[1 + drawn(letters)]
            if (word == coloured) printf "\033[0m"
          }
        }
        print ""
      }
    }'
}
