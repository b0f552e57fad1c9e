# Completion of this command's options and values in bash: read it with `source`, or let ./install put it where bash looks for it.
# checks/help compares what it offers with what the command says of itself.
_ffmpeg_words() {
  # What was typed, cut at blanks alone: bash itself cuts at the colons of `-c:a`, too.
  local line=${COMP_LINE:0:COMP_POINT} word offered='' before='' last
  local -a words
  read -ra words <<<"${line}_"
  word=${words[-1]%_}
  last=$word
  local video='null trim setpts crop pad hflip vflip fps split hstack vstack concat'
  local audio='anull atrim asetpts asplit concat channelsplit join'
  case ${words[-2]-} in
    -f) offered='wav au flac yuv4mpegpipe avi u8 s8 s16le s16be s24le s24be s32le s32be rawvideo framehash framemd5 framecrc hash md5 streamhash crc null' ;;
    -c:a | -codec:a | -acodec) offered='pcm_u8 pcm_s16le pcm_s24le pcm_s32le pcm_s8 pcm_s16be pcm_s24be pcm_s32be flac' ;;
    -c:v | -codec:v | -vcodec) offered='rawvideo' ;;
    -hash)
      offered='sha256 md5'
      [[ $word != [A-Z]* ]] || offered='SHA256 MD5'
      ;;
    -rf64) offered='never auto always' ;;
    -pix_fmt) offered='yuv420p yuv422p yuv444p gray' ;;
    -loglevel | -v) offered='quiet panic fatal error warning info verbose debug trace' ;;
    -fps_mode) offered='passthrough' ;;
    -vsync) offered='passthrough 0' ;;
    -vf | -filter:v) offered=$video ;;
    -af | -filter:a) offered=$audio ;;
    -lavfi | -filter_complex) offered="$video ${audio/concat /} color anullsrc" ;;
    -i | -sched_trace | -map | -ss | -t | -to | -thread_queue_size | -selfrun) ;;
    -fflags | -flags | -flags:[av] | -map_metadata | -map_chapters | -metadata | -strict) ;;
    -threads | -filter_threads | -filter_complex_threads | -max_muxing_queue_size | -frames:v | -vframes | -ar | -ac | -r | -s) ;;
    *)
      if [[ $word == -* ]]; then
        offered='-n -y -hide_banner -nostdin -bitexact -stats -sn -dn -xerror -nostats -loglevel -v'
        offered+=' -fflags -flags -flags:a -flags:v -map_metadata -map_chapters -metadata -strict'
        offered+=' -threads -filter_threads -filter_complex_threads -max_muxing_queue_size -fps_mode -vsync'
        offered+=' -filter_complex -lavfi -thread_queue_size -sched_trace -h -version -selfrun'
        offered+=' -f -ss -t -to -i -map -c:a -codec:a -acodec -c:v -codec:v -vcodec -vf -filter:v -af -filter:a -vn -an -shortest -frames:v -vframes -ar -ac -pix_fmt -r -s -hash -rf64'
      fi
      ;;
  esac
  # In a graph the name of a filter begins after a separator or a label.
  case ${words[-2]-} in
    -vf | -filter:v | -af | -filter:a | -lavfi | -filter_complex)
      last=${word##*[],\;\'\"]}
      before=${word%"$last"}
      ;;
  esac
  # Where nothing is offered bash goes on with the names of files.
  COMPREPLY=()
  [ -n "$offered" ] || return 0
  mapfile -t COMPREPLY < <(compgen -W "$offered" -P "$before" -- "$last")
  # Bash puts what is chosen after an open quote, else after the last of the letters at which it cuts words.
  case $word in
    [\'\"]*) COMPREPLY=("${COMPREPLY[@]#[\'\"]}") ;;
    *[:=\;]*) COMPREPLY=("${COMPREPLY[@]#"${word%"${word##*[:=;]}"}"}") ;;
  esac
}
complete -o default -F _ffmpeg_words ffmpeg ./ffmpeg
