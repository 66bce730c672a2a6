# Completion of remux's words for bash. The description of several outputs is completed where it stands in quotes.

# Answers those of the words that begin with the text, each behind what stands before it. Behind one word alone readline would
# close the quotes; so it is answered twice, with what may follow it.
_remux_reply() {
    local before=$1 text=$2 word
    shift 2
    for word in "$@"; do
        case $word in "$text"*) COMPREPLY+=("$before$word") ;; esac
    done
    if [ "${#COMPREPLY[@]}" -eq 1 ]; then
        case ${COMPREPLY[0]} in
            *=) COMPREPLY+=("${COMPREPLY[0]}..") ;;
            *) COMPREPLY=("${COMPREPLY[0]}:" "${COMPREPLY[0]}]") ;;
        esac
    fi
    compopt -o nospace 2>/dev/null
}

# Answers the files whose names begin with the text.
_remux_files() {
    mapfile -t COMPREPLY < <(compgen -f -P "$1" -- "$2")
    compopt -o nospace 2>/dev/null
}

# Answers the values of an option.
_remux_values() {
    local values
    case $3 in
        f) values='adts flv mpegts segment' ;;
        segment_format) values='adts flv mpegts' ;;
        segment_list_type) values='flat csv m3u8' ;;
        select) values='v a 0 1' ;;
        onfail) values='abort ignore' ;;
        bsfs*) values='h264_mp4toannexb filter_units=remove_types= filter_units=pass_types= dump_extra dump_extra=freq=all null aac_adts' ;;
        use_fifo | drop_pkts_on_overflow | attempt_recovery | restart_with_keyframe | reset_timestamps | break_non_keyframes) values='0 1' ;;
        *) return ;;
    esac
    # shellcheck disable=SC2086
    _remux_reply "$1" "$2" $values
}

# Completes the description of several outputs.
_remux_outputs() {
    local all=$1 one=${1##*|} option keys
    case $one in
        *]*)
            _remux_files "${all%"${one##*]}"}" "${one##*]}"
            return
            ;;
        '')
            _remux_reply "$all" '' '[f='
            return
            ;;
        '['*) ;;
        *)
            _remux_files "${all%"$one"}" "$one"
            return
            ;;
    esac
    option=${one#'['}
    option=${option##*:}
    option=${option#fifo_options=}
    case ${all%"$option"} in
        *'\\:' | *fifo_options=)
            keys='queue_size= queue_bytes= drop_pkts_on_overflow= attempt_recovery= max_recovery_attempts= recovery_wait_time= restart_with_keyframe='
            ;;
        *)
            keys='f= select= onfail= bsfs= bsfs/v= bsfs/a= bsfs/0= bsfs/1= use_fifo= fifo_options='
            case $one in *f=segment*)
                keys+=' segment_format= segment_time= segment_list= segment_list_type= segment_start_number= reset_timestamps= break_non_keyframes='
                ;;
            esac
            ;;
    esac
    # shellcheck disable=SC2086
    case $option in
        *=*) _remux_values "${all%"${option#*=}"}" "${option#*=}" "${option%%=*}" ;;
        *) _remux_reply "${all%"$option"}" "$option" $keys ;;
    esac
}

_remux() {
    local text=$2 before=$3
    COMPREPLY=()
    case $before in
        -f) mapfile -t COMPREPLY < <(compgen -W 'adts flv mpegts segment tee' -- "$text") ;;
        tee) _remux_outputs "$text" ;;
        -max_interleave_delta | -max_input_bytes | generate | --help | --version | -h) compopt +o default ;;
        -i) ;;
        *)
            if [ "$COMP_CWORD" -eq 1 ]; then
                mapfile -t COMPREPLY < <(compgen -W '-i generate --help --version' -- "$text")
            else
                case $text in -*)
                    mapfile -t COMPREPLY < <(compgen -W '-i -f -max_interleave_delta -max_input_bytes' -- "$text")
                    ;;
                esac
            fi
            ;;
    esac
}

complete -o default -F _remux remux
