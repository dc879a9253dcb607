(* relkvanu-laws: reads a log with its answers from standard input, makes the calls again by the definitions of the laws, and compares each answer. A
   line is LINE -> ANSWER (docs/LOGS.md), or as `relkvanu log --terms` prints it: SEQ  TIME  LINE  ->  ANSWER. `@state PLACE TEXT` is the image after
   the call with this number, to go on from, or what the job was opened with; `@image PLACE TEXT` is one to compare. `relkvanu check --against laws`
   writes both. The answer of two lines, with a term, may stand without its second one. The status is 0 if all is alike, 1 at the first difference,
   which is told with its place, and 2 if something can't be read. *)

exception Differs of string

let differs form = Printf.ksprintf (fun what -> raise (Differs what)) form

(* The places of a text in another one. *)
let rec place part text from =
  if from + String.length part > String.length text then None else if String.sub text from (String.length part) = part then Some from else place part text (from + 1)

let after text at = String.trim (String.sub text at (String.length text - at))

(* The number that a text begins with, if it does, and what follows it. *)
let numbered text =
  match String.index_opt text ' ' with
  | Some at when at > 0 && String.for_all (fun c -> c >= '0' && c <= '9') (String.sub text 0 at) ->
      Option.map (fun number -> (number, after text at)) (int_of_string_opt (String.sub text 0 at))
  | _ -> None

(* The number of a call, if the log has it, its line, and the answer that the log has. *)
let parts_of text =
  let line, answer = match place "->" text 0 with None -> (String.trim text, None) | Some at -> (String.trim (String.sub text 0 at), Some (after text (at + 2))) in
  match numbered line with
  | None -> (None, line, answer)
  | Some (number, rest) -> ( match place "  " rest 0 with Some gap -> (Some number, after rest gap, answer) | None -> differs "call %d has no line" number)

(* That calls have one number after the other. *)
let check_number last number =
  match last with
  | Some before when number = before -> differs "call %d stands twice" number
  | Some before when number < before -> differs "call %d stands behind call %d" number before
  | Some before when number > before + 1 -> differs "call %d is missing" (before + 1)
  | _ -> ()

(* The answer of the log is that of the definitions, or its first line. *)
let is_same given answer =
  let first = List.hd (String.split_on_char '\n' answer) in
  List.mem given [ answer; first; String.concat " " (String.split_on_char '\n' answer) ]

let check_answer line given answer =
  match (given, answer) with
  | Some given, Some answer when not (is_same given answer) -> differs "%s: the log has `%s`, and the definitions answer `%s`" line given answer
  | Some given, None when given <> "" -> differs "%s: the log has `%s`, and the definitions answer nothing" line given
  | None, Some answer -> differs "%s: the log has no answer, and the definitions answer `%s`" line answer
  | _ -> ()

(* A log up to some line: the number of its last call, and how many answers and images were compared. An image that was read was compared with what was
   read of it. *)
type found = { run : Language.run; last : int option; answers : int; images : int }

let compare_call found (number, line, given) =
  let shown = match number with None -> line | Some number -> Printf.sprintf "call %d, %s" number line in
  match Language.line_of_text ~logs:true line with
  | exception Language.Fault name -> differs "%s: a line with the fault %s" shown name
  | None when number <> None -> differs "%s: no call" shown
  | None -> found
  | Some its ->
      Option.iter (check_number found.last) number;
      let run, answer = Language.make ~logs:true found.run its in
      check_answer shown given answer;
      { found with run; last = (if number = None then found.last else number); answers = (found.answers + if answer = None then 0 else 1) }

(* The state of an image is the one here, or a call before it is missing. *)
let compare_image found number text =
  let here = match found.run.machine with None -> "" | Some machine -> Language.image_text machine in
  match found.last with
  | Some last when last < number -> differs "call %d is missing" (last + 1)
  | _ when text <> here -> differs "the image after call %d is not the state there" number
  | _ -> { found with images = found.images + 1 }

let begin_from found number text =
  match Language.kept_machine text with
  | exception Language.Fault _ -> differs "the image after call %d is none" number
  | machine -> { found with run = { Language.nothing with machine = Some machine }; last = Some number; images = min number 1 }

let compare found text =
  match String.index_opt text ' ' with
  | Some at when text.[0] = '@' -> (
      match (String.sub text 0 at, numbered (after text at)) with
      | "@state", Some (number, image) -> begin_from found number image
      | "@image", Some (number, image) -> compare_image found number image
      | word, _ -> differs "%s has no place" word)
  | _ -> compare_call found (parts_of text)

let fault what =
  prerr_string ("relkvanu-laws: " ^ what ^ "\n");
  exit 2

let () =
  set_binary_mode_in stdin true;
  let rec go at found =
    match input_line stdin with
    | exception End_of_file -> found
    | exception Sys_error why -> fault why
    | line -> (
        match compare found line with
        | found -> go (at + 1) found
        | exception Differs what -> Printf.printf "line %d: %s\n" at what; exit 1
        | exception Stack_overflow -> fault (Printf.sprintf "line %d: the stack is too small for it: `ulimit -s unlimited` gives more" at))
  in
  let { answers; images; _ } = go 1 { run = Language.nothing; last = None; answers = 0; images = 0 } in
  Printf.printf "%d answers and %d images are those of the definitions\n" answers images
