(* Reads a script from standard input and prints its answers, as ckpt_job does; called ckpt_log it reads a log, as ckpt_log does. *)
let logs = Filename.basename Sys.argv.(0) = "ckpt_log"

let fault what =
  prerr_string ("fault: " ^ what ^ "\n");
  exit 2

(* The answers to the lines, and whether one has a fault. A log ends at its first fault. *)
let rec answers number run has_fault = function
  | [] -> has_fault
  | _ when number > 1_000_000 && not logs -> flush stdout; fault "too many lines"
  | text :: rest -> (
      match Option.map (Language.make ~logs run) (Language.line_of_text ~logs text) with
      | exception Language.Fault name ->
          Printf.printf "line %d fault %s\n" number name;
          logs || answers (number + 1) run true rest
      | None -> answers (number + 1) run has_fault rest
      | Some (run, answer) ->
          Option.iter (fun answer -> print_string (answer ^ "\n")) answer;
          answers (number + 1) run has_fault rest)

let () =
  let lines = try Language.lines_of stdin with Sys_error _ -> fault "read" in
  try
    let has_fault = answers 1 Language.nothing false lines in
    flush stdout;
    exit (if has_fault then 1 else 0)
  with Sys_error _ ->
    prerr_string "fault: write\n";
    flush stderr;
    Unix._exit 2 (* what could not be written stays in the buffer *)
