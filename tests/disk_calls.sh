#!/usr/bin/env bash
# Which functions of the program remove, empty, write, rename, make or lock what is on disk, and who says what files
# hold: these, as the sources have it, and no other. What each of them requires is proved; that there is no further one
# is in no contract.
set -u
cd "$(dirname -- "$0")/.." || exit 1
. tests/lib/common.bash

# Each call with the function that it stands in, and what is removed.
program_sources | xargs awk '
    /^ *(pub |pub\(crate\) )?fn / { match($0, /fn [a-z_]+/); name = substr($0, RSTART + 3, RLENGTH - 3); next }
    match($0, /(remove_file|remove_dir|remove_dir_all|set_len|rename|hard_link|soft_link|create_new|create_dir|create_dir_all|::copy|::write|fs::create|sqlite_std_file::open)\(|File::create(_new)?|OpenOptions::new\(|set_permissions\(|write_all\(|write_at\(|write_all_at\(|\.write\(|\.append\(|truncate\(|[ :](Unknown|Wary)[,)]/) {
        call = substr($0, RSTART, RLENGTH)
        rest = substr($0, RSTART + RLENGTH)
        gsub(/[ :]*\(?$|^[ :]+|[,)]$/, "", call)
        file = FILENAME
        sub(/^crates\//, "", file)
        sub(/src\//, "", file)
        sub(/\);?$/, "", rest)
        print file, name, call (call == "remove_file" ? " " rest : "")
    }' >"$work/calls"

cat >"$work/known" <<'KNOWN'
bag_folder/destination.rt give_up remove_dir
bag_folder/file_system.rt make_folder create_dir
bag_folder/file_system.rt make_directories create_dir_all
bag_folder/file_system.rt make_file File::create_new
bag_folder/folder_sink.rt write write_all
bag_folder/folder_sink_file.rt write write_all
bag_program/clearing_output.rt write .write
bag_program/clearing_output.rt write_all write_all
bag_program/ledgers/abandoned_ledger.rt remove_new_log remove_file self.rt, self.seen.log()
bag_program/ledgers/abandoned_ledger.rt remove_new_file remove_file self.rt, self.seen.name()
bag_program/ledgers/ledger_handle.rt open OpenOptions::new
bag_program/ledgers/ledger_handle.rt open .write
bag_program/ledgers/ledger_handle.rt open create_new
bag_program/ledgers/ledger_handle.rt empty set_len
bag_program/ledgers/locked_file.rt remove_copied_log remove_file self.rt, self.seen.log()
bag_program/ledgers/locking.rt open_locked sqlite_std_file::open
bag_program/main.rt main Unknown
bag_program/terminal.rt write write_all
bag_program/terminal.rt write .write
bag_program/terminal.rt write_all write_all
bag_program/terminal.rt write_shown write_all
bag_program/terminal.rt write_escaped write_all
bag_program/watched.rt write .write
bag_receiver/export.rt write_content .write
bag_writer/copying.rt copy_piece .write
bag_writer/payload_in_turn.rt write_piece .write
bag_writer/sink.rt add_file .write
KNOWN
expect 'what is removed, emptied, written and made' 0 '' diff "$work/known" "$work/calls"
finish
