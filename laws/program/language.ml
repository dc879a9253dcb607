(* Reads the lines of scripts and logs (docs/SCRIPT.md, docs/LOGS.md), and prints the answers of the extracted model. *)
open Model

exception Fault of string

(* ---- numbers *)

let rec positive i = if i = 1 then XH else if i land 1 = 1 then XI (positive (i lsr 1)) else XO (positive (i lsr 1))
let number_of_int i = if i = 0 then N0 else Npos (positive i)
let ten = number_of_int 10
let rec int_of_positive = function XH -> 1 | XO p -> 2 * int_of_positive p | XI p -> (2 * int_of_positive p) + 1
let int_of_number = function N0 -> 0 | Npos p -> int_of_positive p

let rec text_of number =
  let rest, digit = N.div_eucl number ten in
  let digit = string_of_int (int_of_number digit) in
  if rest = N0 then digit else text_of rest ^ digit

(* A number below 2 ^ 62 is one of OCaml, and all others are read digit by digit. *)
let of_digits text =
  if String.length text <= 18 then number_of_int (int_of_string text)
  else String.fold_left (fun n digit -> N.add (N.mul n ten) (number_of_int (Char.code digit - 48))) N0 text

let greatest = of_digits "18446744073709551615"
let greatest_part = number_of_int 65535

(* ---- words *)

let number word =
  if word = "" || not (String.for_all (fun c -> c >= '0' && c <= '9') word) then raise (Fault "Number");
  let rec strip at = if at < String.length word - 1 && word.[at] = '0' then strip (at + 1) else at in
  let from = strip 0 in
  let digits = String.sub word from (String.length word - from) in
  if String.length digits > 20 then raise (Fault "Number");
  let found = of_digits digits in
  if N.ltb greatest found then raise (Fault "Number") else found

let subtask word =
  match String.split_on_char '.' word with
  | [ vertex; index ] ->
      let s_vertex = number vertex in
      let s_index = number index in
      if N.ltb greatest_part s_vertex || N.ltb greatest_part s_index then raise (Fault "Number");
      { s_vertex; s_index }
  | _ -> raise (Fault "Number")

let keep = function "keep" -> true | "delete" -> false | _ -> raise (Fault "Word")
let target_of word = if word = "latest" then Coq_target.Latest else Coq_target.Savepoint (number word)

let file word =
  match word.[0] with
  | ('+' | '=') as sign -> (sign, number (String.sub word 1 (String.length word - 1)))
  | _ -> raise (Fault "Word")

let next words = match !words with [] -> raise (Fault "Missing") | word :: rest -> words := rest; word
let last words found = if !words <> [] then raise (Fault "Extra") else found
let read what words = what (next words)
let ascending = List.sort (fun a b -> match N.compare a b with Lt -> -1 | Eq -> 0 | Gt -> 1)

(* ---- lines *)

type line =
  | Config of configuration
  | Job of n list
  | Start of n
  | All of n * n * n * n
  | Call of call
  | In of n * line
  | No_call
  | Fence of n
  | Names of fencedCall

let settings words =
  let c_interval = read number words in
  let c_pause = read number words in
  let c_at_once = read number words in
  let c_timeout = read number words in
  let c_tolerable = read number words in
  let c_retained = read number words in
  let c_keep_on_cancel = read keep words in
  last words { c_interval; c_pause; c_at_once; c_timeout; c_tolerable; c_retained; c_keep_on_cancel }

let one words make =
  let found = read number words in
  last words (make found)

let acknowledgement words =
  let now = read number words in
  let id = read number words in
  let its = read subtask words in
  let files = List.map file !words in
  let those sign = ascending (List.filter_map (fun (each, number) -> if each = sign then Some number else None) files) in
  Call (Ack (now, id, its, those '+', those '='))

(* A line of a script, whose first word this is; None if no script has such a line. *)
let script_line word words =
  let call make = one words (fun found -> Call (make found)) in
  match word with
  | "config" -> Some (Config (settings words))
  | "job" ->
      let first = read number words in
      Some (Job (first :: List.map number !words))
  | "start" -> Some (one words (fun now -> Start now))
  | "tick" -> Some (call (fun now -> Tick now))
  | "savepoint" -> Some (call (fun now -> Savepoint0 now))
  | "ack" -> Some (acknowledgement words)
  | "decline" ->
      let now = read number words in
      let id = read number words in
      let its = read subtask words in
      Some (last words (Call (Decline (now, id, its))))
  | "dispose" -> Some (call (fun id -> Dispose id))
  | "restore" ->
      let now = read number words in
      let target = read target_of words in
      let shape = List.map number !words in
      Some (Call (Restore (now, target, if shape = [] then None else Some shape)))
  | "cancel" -> Some (call (fun now -> Cancel now))
  | "take" -> Some (call (fun most -> Take most))
  | "deleted" -> Some (call (fun file -> Deleted file))
  | "undeleted" -> Some (call (fun file -> Undeleted file))
  | "show" -> Some (call (fun id -> Show id))
  | "count" -> Some (call (fun file -> Count file))
  | "all" ->
      let now = read number words in
      let id = read number words in
      let threads = read number words in
      let first = read number words in
      Some (last words (All (now, id, threads, first)))
  | _ -> None

(* A line that logs alone have. *)
let rec log_line ~inner word words =
  match word with
  | "in" when not inner -> (
      let term = read number words in
      match !words with
      | word :: _ when word.[0] = '#' -> No_call
      | _ -> ( match line_of ~logs:true ~inner:true words with (Config _ | Job _ | Start _ | All _) -> No_call | line -> In (term, line)))
  | "trigger" -> one words (fun now -> Call (Trigger now))
  | "configure" ->
      let now = read number words in
      Call (Configure (now, settings words))
  | "fence" when not inner -> one words (fun first -> Fence first)
  | "reserve" when not inner ->
      let term = read number words in
      one words (fun count -> Names (Reserve (term, count)))
  | "forfeit" when not inner ->
      let term = read number words in
      Names (Forfeit (term, List.map number !words))
  | "advance" when not inner ->
      let now = read number words in
      let term = read number words in
      one words (fun first -> Names (Advance (now, term, first)))
  | _ -> raise (Fault "Word")

and line_of ~logs ~inner words =
  let word = next words in
  match script_line word words with Some line -> line | None -> if logs then log_line ~inner word words else raise (Fault "Word")

(* ---- texts *)

let commas text found = String.concat "," (List.map text found)

let record_of (m : metadata) =
  { r_id = m.d_id; r_kind = m.d_kind; r_done = m.d_done; r_shape = m.d_shape; r_started = m.d_started; r_acks = m.d_acks; r_pins = [] }

let metadata_text m =
  let acked one =
    Printf.sprintf "{\"files\":[%s],\"subtask\":\"%s.%s\"}" (commas text_of one.a_files) (text_of one.a_subtask.s_vertex) (text_of one.a_subtask.s_index)
  in
  let kind = match m.d_kind with Coq_kind.Checkpoint -> "checkpoint" | Coq_kind.Savepoint -> "savepoint" in
  Printf.sprintf "{\"acks\":[%s],\"id\":%s,\"kind\":\"%s\",\"missing\":%s,\"shape\":[%s],\"started\":%s,\"state\":\"%s\"}" (commas acked m.d_acks)
    (text_of m.d_id) kind (text_of (missing (record_of m))) (commas text_of m.d_shape) (text_of m.d_started) (if m.d_done then "done" else "pending")

let refusal_text = function
  | MomentTooLarge -> "MomentTooLarge" | NotRunning -> "NotRunning" | TooManyFiles -> "TooManyFiles" | RepeatedFile -> "RepeatedFile"
  | UnknownCheckpoint -> "UnknownCheckpoint" | UnknownSubtask -> "UnknownSubtask" | AlreadyAcknowledged -> "AlreadyAcknowledged"
  | NameTaken file -> "NameTaken " ^ text_of file | FileGone file -> "FileGone " ^ text_of file | NoSuchSavepoint -> "NoSuchSavepoint"
  | InUse -> "InUse" | TooManySavepoints -> "TooManySavepoints" | NotTaken -> "NotTaken" | NoSuchRecord -> "NoSuchRecord"
  | IdsUsedUp -> "IdsUsedUp" | AtOnce -> "AtOnce"

let end_text = function
  | Coq_tick_end.Triggered id -> "triggered " ^ text_of id
  | Coq_tick_end.HeldInterval -> "held interval" | Coq_tick_end.HeldAtOnce -> "held at-once" | Coq_tick_end.HeldPause -> "held pause"
  | Coq_tick_end.Failed -> "failed"

let choice_text = function
  | Coq_choice.Checkpoint id -> "checkpoint " ^ text_of id
  | Coq_choice.Savepoint id -> "savepoint " ^ text_of id
  | Coq_choice.Fresh -> "fresh"

let reply_text reply =
  let words word numbers = String.concat " " (word :: List.map text_of numbers) in
  match reply with
  | Coq_reply.Ticked (expired, ended) -> words "tick expired" [ expired ] ^ " " ^ end_text ended
  | Coq_reply.SavepointTriggered id -> words "savepoint triggered" [ id ]
  | Coq_reply.AckPending missing -> words "ack pending" [ missing ]
  | Coq_reply.AckCompleted (dropped, released) -> words "ack completed" [ dropped; released ]
  | Coq_reply.AckLate handed -> words "ack late" [ handed ]
  | Coq_reply.DeclineAborted released -> words "decline aborted" [ released ]
  | Coq_reply.DeclineFailed released -> words "decline failed" [ released ]
  | Coq_reply.DeclineLate -> "decline late"
  | Coq_reply.Disposed released -> words "disposed" [ released ]
  | Coq_reply.Restored (choice, released) -> "restored " ^ choice_text choice ^ " " ^ text_of released
  | Coq_reply.Cancelled (dropped, released) -> words "cancelled" [ dropped; released ]
  | Coq_reply.Taken [] -> "take none"
  | Coq_reply.Taken files -> words "take" files
  | Coq_reply.Deleted file -> words "deleted" [ file ]
  | Coq_reply.Undeleted file -> words "undeleted" [ file ]
  | Coq_reply.Shown metadata -> metadata_text metadata
  | Coq_reply.Counted (file, uses) -> words "count" [ file; uses ]
  | Coq_reply.Configured (dropped, released) -> words "configured" [ dropped; released ]

let answer_text = function Refused why -> "refused " ^ refusal_text why | Done reply -> reply_text reply

let fenced_text = function
  | OldTerm -> "OldTerm" | Ended -> "Ended" | BadCount -> "BadCount" | NamesUsedUp -> "NamesUsedUp" | TermsUsedUp -> "TermsUsedUp"
  | BadName -> "BadName" | Spent file -> "Spent " ^ text_of file | NeverReserved file -> "NeverReserved " ^ text_of file

(* ---- a run: what a script or a log has set up, and the coordinator, with names or without *)

type run = { config : configuration option; shape : n list option; machine : Coq_machine.coq_Machine option }

let nothing = { config = None; shape = None; machine = None }

let plain_call run state call =
  let state, answer = step state call in
  ({ run with machine = Some (Coq_machine.Plain state) }, answer)

let fenced_call run names call =
  let names, answer = fenced_step names call in
  let text =
    match answer with
    | Coq_answer.Reserved first -> "reserved " ^ text_of first
    | Coq_answer.Forfeited -> "forfeited"
    | Coq_answer.Fenced why -> "fenced " ^ fenced_text why
    | Coq_answer.Made (term, its) -> answer_text its ^ if has_ended call answer then "\nterm " ^ text_of term else ""
  in
  ({ run with machine = Some (Coq_machine.Fenced names) }, text)

let make_call run machine term call =
  match (call, machine) with
  | Restore (_, _, Some shape), _ when not (is_shape shape) -> (run, "refused BadShape")
  | Configure (_, config), _ when not (is_within_limits config) -> (run, "refused BadConfig")
  | _, Coq_machine.Fenced names -> fenced_call run names (Make (term, call))
  | _, Coq_machine.Plain _ when not (N.eqb term N0) -> (run, "refused NoNames")
  | _, Coq_machine.Plain state ->
      let run, answer = plain_call run state call in
      (run, answer_text answer)

(* Acknowledges a record for each subtask that it misses, each with one file. *)
let acknowledge_all run state now id first (shown : metadata) =
  let todo = List.filter (fun its -> not (has_acknowledged (record_of shown) its)) (subtasks shown.d_shape) in
  let needed = List.length todo in
  if N.ltb (N.add greatest (number_of_int 1)) (N.add first (number_of_int needed)) then (run, "refused FilesUsedUp")
  else
    let make (state, accepted, whole) (at, its) =
      let state, answer = step state (Ack (now, id, its, [ N.add first (number_of_int at) ], [])) in
      match answer with
      | Refused _ -> (state, accepted, whole)
      | Done (Coq_reply.AckCompleted (dropped, released)) -> (state, accepted + 1, Some (dropped, released))
      | Done _ -> (state, accepted + 1, whole)
    in
    let state, accepted, whole = List.fold_left make (state, 0, None) (List.mapi (fun at its -> (at, its)) todo) in
    let text =
      match whole with
      | Some (dropped, released) -> Printf.sprintf "completed %s %s" (text_of dropped) (text_of released)
      | None -> Printf.sprintf "pending %d" (needed - accepted)
    in
    ({ run with machine = Some (Coq_machine.Plain state) }, Printf.sprintf "all %d %d %s" accepted (needed - accepted) text)

let all_text run machine now id threads first =
  if N.eqb threads N0 || N.ltb (number_of_int 64) threads then (run, "refused BadThreads")
  else
    let state = core_in machine in
    match step state (Show id) with
    | _, Done (Coq_reply.Shown shown) when not shown.d_done -> acknowledge_all run state now id first shown
    | _ -> (run, "refused NotPending")

let fence run machine first =
  match fence_fault machine first with
  | Some Coq_fault.HasNames -> (run, "refused HasNames")
  | Some Coq_fault.BadName -> (run, "refused BadName")
  | Some Coq_fault.NameInUse -> (run, "refused NameInUse")
  | None -> ({ run with machine = Some (Coq_machine.Fenced (fenced_of (core_in machine) (first_names first))) }, "term 1")

let start run now =
  match run with
  | { config = Some o_config; shape = Some o_shape; _ } ->
      if N.leb mOMENTS_END now then (run, Some "refused MomentTooLarge")
      else
        let state = opened { o_config; o_shape; o_start = now; o_first = number_of_int 1 } in
        ({ run with machine = Some (Coq_machine.Plain state) }, None)
  | _ -> (run, Some "refused NotReady")

let call_line run machine = function
  | All (now, id, threads, first) -> all_text run machine now id threads first
  | Call call -> make_call run machine N0 call
  | In (term, Call call) -> make_call run machine term call
  | Fence first -> fence run machine first
  | Names call -> ( match machine with Coq_machine.Fenced names -> fenced_call run names call | Coq_machine.Plain _ -> (run, "refused NoNames"))
  | Config _ | Job _ | Start _ | In _ | No_call -> (run, "refused NoCall")

(* What a line does, and the answer, if it has one. *)
let make ~logs run line =
  match (line, run.machine) with
  | (Config _ | Job _ | Start _), Some _ -> (run, Some "refused Started")
  | Config config, None -> if is_within_limits config then ({ run with config = Some config }, None) else (run, Some "refused BadConfig")
  | Job shape, None -> if is_shape shape then ({ run with shape = Some shape }, None) else (run, Some "refused BadShape")
  | Start now, None -> start run now
  | No_call, _ -> (run, Some "refused NoCall")
  | All _, _ when logs -> (run, Some "refused NoCall")
  | _, None -> (run, Some "refused NotStarted")
  | _, Some machine ->
      let run, answer = call_line run machine line in
      (run, Some answer)

(* The line of a text; None if it is empty or a comment. *)
let line_of_text ~logs text =
  if String.length text > 131072 then raise (Fault "TooLong");
  let length = String.length text in
  let text = if length > 0 && text.[length - 1] = '\r' then String.sub text 0 (length - 1) else text in
  match List.filter (fun word -> word <> "") (String.split_on_char ' ' text) with
  | [] -> None
  | word :: _ when word.[0] = '#' -> None
  | words -> Some (line_of ~logs ~inner:false (ref words))

(* All lines that can be read; the last one may lack its newline. *)
let lines_of channel =
  set_binary_mode_in channel true;
  let rec go found = match input_line channel with exception End_of_file -> List.rev found | line -> go (line :: found) in
  go []

(* ---- the text of an image (docs/LOGS.md) *)

let numbers found = "[" ^ commas text_of found ^ "]"
let optional = function None -> "null" | Some number -> text_of number

let record_text one =
  let acked (ack : acked) =
    Printf.sprintf "{\"files\":%s,\"index\":%s,\"vertex\":%s}" (numbers ack.a_files) (text_of ack.a_subtask.s_index) (text_of ack.a_subtask.s_vertex)
  in
  Printf.sprintf "{\"acks\":[%s],\"id\":%s,\"kind\":\"%s\",\"pins\":%s,\"shape\":%s,\"started\":%s,\"state\":\"%s\"}" (commas acked one.r_acks)
    (text_of one.r_id) (match one.r_kind with Coq_kind.Checkpoint -> "checkpoint" | Coq_kind.Savepoint -> "savepoint") (numbers one.r_pins)
    (numbers one.r_shape) (text_of one.r_started) (if one.r_done then "done" else "pending")

let config_text c =
  Printf.sprintf "{\"at_once\":%s,\"interval\":%s,\"keep_on_cancel\":%b,\"pause\":%s,\"retained\":%s,\"timeout\":%s,\"tolerable\":%s}" (text_of c.c_at_once)
    (text_of c.c_interval) c.c_keep_on_cancel (text_of c.c_pause) (text_of c.c_retained) (text_of c.c_timeout) (text_of c.c_tolerable)

let state_text m names =
  let opening = m.m_opening in
  Printf.sprintf
    "{\"base\":%s,\"clock\":{\"completed\":%s,\"due\":%s,\"latest\":%s},\"failures\":%s,\"mode\":\"%s\",%s\"next\":%s,\"opening\":{\"config\":%s,\"first\":%s,\"shape\":%s,\"start\":%s},\"outbox\":{\"taken\":%s,\"waiting\":%s},\"records\":[%s],\"shape\":%s,"
    (optional m.m_base) (optional m.m_completed) (text_of m.m_due) (text_of m.m_latest) (text_of m.m_failures)
    (match m.m_mode with Running -> "running" | Failed0 -> "failed" | Cancelled0 -> "cancelled")
    names (text_of m.m_next) (config_text opening.o_config) (text_of opening.o_first) (numbers opening.o_shape) (text_of opening.o_start)
    (numbers (ascending m.m_taken)) (numbers m.m_waiting) (commas record_text m.m_records) (numbers m.m_shape)

(* The names that a term holds, as few ranges. *)
let rec ranges = function
  | [] -> []
  | name :: rest -> (
      let next = N.add name (number_of_int 1) in
      match ranges rest with (first, last) :: more when N.eqb first next -> (name, last) :: more | more -> (name, next) :: more)

let names_text names =
  let range (first, last) = Printf.sprintf "[%s,%s]" (text_of first) (text_of last) in
  Printf.sprintf "\"names\":{\"next\":%s,\"term\":%s,\"unspent\":[%s]}," (text_of names.f_next_name) (text_of names.f_term) (commas range (ranges names.f_unspent))

let image_text = function
  | Coq_machine.Plain state -> state_text state "" ^ "\"version\":1}"
  | Coq_machine.Fenced names -> state_text names.f_core (names_text names) ^ "\"version\":2}"

(* ---- an image that is read again: its text, as it is written above *)

type json = Word of string | Items of json list | Members of (string * json) list

let json_word text at =
  if text.[!at] = '"' then incr at;
  let from = !at in
  while not (String.contains ",:]}\"" text.[!at]) do incr at done;
  let found = String.sub text from (!at - from) in
  if text.[!at] = '"' then incr at;
  found

let rec up_to closing read text at found =
  match text.[!at] with
  | ',' when found <> [] -> incr at; up_to closing read text at (read text at :: found)
  | it when it = closing -> incr at; List.rev found
  | _ -> up_to closing read text at (read text at :: found)

let rec json text at =
  match text.[!at] with
  | '[' -> incr at; Items (up_to ']' json text at [])
  | '{' -> incr at; Members (up_to '}' json_member text at [])
  | _ -> Word (json_word text at)

and json_member text at =
  let name = json_word text at in
  incr at;
  (name, json text at)

let no_image = Fault "NoImage"
let member_of name = function Members all when List.mem_assoc name all -> List.assoc name all | _ -> raise no_image
let word_of name it = match member_of name it with Word word -> word | _ -> raise no_image
let list_of read name it = match member_of name it with Items all -> List.rev (List.rev_map read all) | _ -> raise no_image
let number_of name it = number (word_of name it)
let numbers_of = list_of (function Word word -> number word | _ -> raise no_image)
let maybe_of name it = match word_of name it with "null" -> None | word -> Some (number word)
let rec names_between (first, last) = if N.ltb first last then first :: names_between (N.add first (number_of_int 1), last) else []
let range_of = function Items [ Word first; Word last ] -> names_between (number first, number last) | _ -> raise no_image

let kept_ack it = { a_subtask = { s_vertex = number_of "vertex" it; s_index = number_of "index" it }; a_files = numbers_of "files" it }

let kept_record it =
  let r_kind = if word_of "kind" it = "savepoint" then Coq_kind.Savepoint else Coq_kind.Checkpoint in
  { r_id = number_of "id" it; r_kind; r_done = word_of "state" it = "done"; r_shape = numbers_of "shape" it; r_started = number_of "started" it;
    r_acks = list_of kept_ack "acks" it; r_pins = numbers_of "pins" it }

let kept_opening it =
  let config = member_of "config" it in
  let its name = number_of name config in
  let o_config =
    { c_interval = its "interval"; c_pause = its "pause"; c_at_once = its "at_once"; c_timeout = its "timeout"; c_tolerable = its "tolerable";
      c_retained = its "retained"; c_keep_on_cancel = word_of "keep_on_cancel" config = "true" }
  in
  { o_config; o_shape = numbers_of "shape" it; o_start = number_of "start" it; o_first = number_of "first" it }

let kept_state it =
  let clock = member_of "clock" it and outbox = member_of "outbox" it in
  let m_mode = match word_of "mode" it with "failed" -> Failed0 | "cancelled" -> Cancelled0 | _ -> Running in
  { (opened (kept_opening (member_of "opening" it))) with
    m_shape = numbers_of "shape" it; m_base = maybe_of "base" it; m_completed = maybe_of "completed" clock; m_due = number_of "due" clock;
    m_latest = number_of "latest" clock; m_failures = number_of "failures" it; m_mode; m_next = number_of "next" it; m_waiting = numbers_of "waiting" outbox;
    m_taken = numbers_of "taken" outbox; m_records = list_of kept_record "records" it }

(* What a job was opened with is its member `opening` alone. Everything else is an image, which would be written again as it is. *)
let kept_machine text =
  match json text (ref 0) with
  | exception Invalid_argument _ -> raise no_image
  | Members all as it when List.mem_assoc "config" all -> Coq_machine.Plain (opened (kept_opening it))
  | Members all as it ->
      let kept =
        match List.assoc_opt "names" all with
        | None -> Coq_machine.Plain (kept_state it)
        | Some names ->
            let f_unspent = List.concat (list_of range_of "unspent" names) in
            Coq_machine.Fenced { f_core = kept_state it; f_term = number_of "term" names; f_next_name = number_of "next" names; f_unspent }
      in
      if image_text kept = text then kept else raise no_image
  | _ -> raise no_image
