# Completes the options of csvtable in bash.
_csvtable() {
  local word=${COMP_WORDS[COMP_CWORD]} option=${COMP_WORDS[COMP_CWORD - 1]}
  # `--style=box` is three words
  [ "$word" != = ] || word=
  [ "$option" != = ] || option=${COMP_WORDS[COMP_CWORD - 2]}
  case $option in
    -d|--delimiter)
      COMPREPLY=($(compgen -W 'auto tab spaces' -- "$word"))
      return
      ;;
    -e|--encoding)
      COMPREPLY=($(compgen -W 'utf-8 utf8 cp1252 windows-1252 latin1 latin-1 iso-8859-1 utf-16 utf16 utf-16le' -- "$word"))
      return
      ;;
    --expanded)
      COMPREPLY=($(compgen -W 'auto always never' -- "$word"))
      return
      ;;
    -s|--style)
      COMPREPLY=($(compgen -W 'rounded box grid ascii plain markdown ASCII_FULL ASCII_FULL_CONDENSED ASCII_NO_BORDERS ASCII_BORDERS_ONLY ASCII_BORDERS_ONLY_CONDENSED ASCII_HORIZONTAL_ONLY ASCII_MARKDOWN UTF8_FULL UTF8_FULL_CONDENSED UTF8_NO_BORDERS UTF8_BORDERS_ONLY UTF8_HORIZONTAL_ONLY NOTHING' -- "$word"))
      return
      ;;
    --color)
      COMPREPLY=($(compgen -W 'auto always never' -- "$word"))
      return
      ;;
    --skip|--limit|-c|--columns|--drop|-r|--right|--left|-w|--width|-m|--max-height)
      return
      ;;
  esac
  case $word in
    -*) COMPREPLY=($(compgen -W '-d --delimiter -t -e --encoding --no-quotes --skip -n --no-header --limit --count -l --number -c --columns --drop -r --right --left --no-decimal -w --width --full -x --expanded -s --style --rows --no-rows -m --max-height --markdown --color --ansi -h --help -V --version' -- "$word")) ;;
    *) COMPREPLY=($(compgen -f -- "$word")) ;;
  esac
}
complete -o filenames -F _csvtable csvtable
