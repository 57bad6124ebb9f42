# Makes inputs of CSV, for the scripts that read this file. Each run makes the same inputs.

# Prints a header and RECORDS random records of a kind: csv_of KIND RECORDS. The seed is fixed. The kinds are ledger, benchmark,
# listing, names and messages.
csv_of() {
  awk -v kind="$1" -v records="$2" '
    function drawn(count) { state = state * 16807 % 2147483647; return state % count }
    function date() { return sprintf("2026-%02d-%02d", 1 + drawn(12), 1 + drawn(28)) }
    function word(list, parts) { return parts[1 + drawn(list)] }
    BEGIN {
      state = 1
      accounts = split("cash bank card savings", account, " ")
      texts = split("Rent|\"Paper, pens\"|Invoice 17|\"Lunch, \"\"Harbour\"\"\"|Train to Basel|Salary||\"Repair\nand paint\"", text, "|")
      benches = split("parse draw sort hash read write", bench, " ")
      modes = split("-rw-r--r-- drwxr-xr-x -rwxr-xr-x lrwxrwxrwx", mode, " ")
      files = split("LICENSE README.md crates Makefile src tools notes.txt archive.tar.gz", file, " ")
      names = split("Latin,José|Greek,Ελένη|Cyrillic,Анна|Hebrew,רות|Arabic,ليلى|Georgian,ნინო|Chinese,王小明|Hangul,김철수", name, "|")
      people = split("Ada Ben Cleo Dov Emi", person, " ")
      said = split("\"She said: \"\"no\"\"\"|\"first line\nsecond line\"|see you at eight|\"tab\there\"|ok|\"a, b, and c\"", saying, "|")
      if (kind == "ledger") print "date,account,text,amount,balance"
      if (kind == "benchmark") print "benchmark,runs,mean_ns,change,group"
      if (kind == "listing") print "mode,links,size,date,name"
      if (kind == "names") print "script,name,letters,born,town"
      if (kind == "messages") print "time,from,to,message,number"
      for (row = 1; row <= records; row++) {
        if (kind == "ledger") print date() "," word(accounts, account) "," word(texts, text) "," sprintf("%.2f", drawn(400000) / 100 - 2000) "," drawn(100000)
        if (kind == "benchmark") print word(benches, bench) "/" drawn(1000) "," 100 * (1 + drawn(500)) "," drawn(100000) / 10 "," sprintf("%+.1f%%", drawn(400) / 10 - 20) "," word(benches, bench)
        if (kind == "listing") print word(modes, mode) "," 1 + drawn(9) "," drawn(1000000) "," date() "," word(files, file)
        if (kind == "names") print word(names, name) "," 2 + drawn(9) "," date() "," word(files, file)
        if (kind == "messages") print sprintf("%02d:%02d", drawn(24), drawn(60)) "," word(people, person) "," word(people, person) "," word(said, saying) "," row
      }
    }'
}
