/// What each written module begins with.
pub const HEAD: &str = "\
use Rattle.std.specs.Prelude.{◌≡◌, ℕ, ℤ, pos, negsuc, Bool, true, false, List, [], ◌∷◌, replicate, Float, Ok, Err}
use mathlib.Core.Path.{refl}
use Rattle.loops.specs.Refusal.{first_of}
use Rattle.floats.specs.Operators.{f32, f64, zero₃₂, zero₆₄}
use Rattle.definition.specs.declared.IvectorInfo.{IvectorInfo}
use Rattle.definition.specs.Reader.{read, refused}
use Rattle.definition.specs.Model.{Model, tables_from, load}
use Rattle.definition.specs.Machine.{push, finish, change, forget, set_window, fetch, push_tests, answers}
use Rattle.definition.specs.Stream.{new_refusal}
use Rattle.definition.specs.Silence.{decoder, settings_refusal, new_table, table_broken}
use Rattle.program.specs.Rooms.{rings_from, estimate_from, rooms_from}
use Rattle.val.specs.Words.{opened, said, declined, traceback, weights, heard, bare, make_stream, make_table, plain, ask, step, turn, begun, refusing, answered, giving, leaving, ending, events}
";

/// The words that they share, in a module of their own.
pub const WORDS: &str = "\
use Rattle.std.specs.Prelude.{ℕ, ℤ, Bool, true, false, not, ◌||◌, List, [], ◌∷◌, ◌++◌, length, replicate, Float, Result, Ok, Err}
use Rattle.loops.specs.Refusal.{first_of, taken}
use Rattle.floats.specs.Operators.{zero₃₂}
use Rattle.definition.specs.declared.TableLengths.{TableLengths}
use Rattle.definition.specs.declared.RoomLengths.{RoomLengths}
use Rattle.definition.specs.declared.IvectorStream.{IvectorStream}
use Rattle.definition.specs.declared.SilenceWeighting.{SilenceWeighting}
use Rattle.definition.specs.declared.StreamCall.{StreamCall}
use Rattle.definition.specs.Model.{Model, Tables, table_lengths_of}
use Rattle.definition.specs.Changes.{Change}
use Rattle.definition.specs.Machine.{Call, Answer}
use Rattle.definition.specs.Stream.{same_tables, is_foreign, same_rooms}
use Rattle.definition.specs.Silence.{Table, TableRooms, table_rooms, TableCall, input, decoder, segments, traced, new_table, table_broken, traceback_tests, asked, asked_table, delta_tests, table_done, compute_current_traceback, get_delta_weights}
use Rattle.definition.proofs.Computed.{computed}
use Rattle.program.specs.Rooms.{rings_from, estimate_from, Rooms, rooms_from, room_lengths_of, ring_at, waiting_in}
use Rattle.program.specs.Calls.{answer_of, fresh_stream, new_answer, fresh_rooms, pushed_frames, pushed_rows, push_frame, set_input_finished, update_frame_weights, forget_mark, forget_before, set_cmn_window, fetch_refusal, fetch_estimate, fetch_changes, fetch_stream, fetch_rooms, fetch_vector, fetch_nans, get_frame}
use Rattle.program.specs.Session.{Program, program, stepped, reply, step_of}
use Rattle.rounds.specs.Voice.{distance, least, voice_refusal, within_limit, nearest_voice}
use Rattle.board.specs.Board.{board, bytes_of, interrupt_of, held_count, room_for_push, command_of, call_flags, rewritten, block_refusal, performed, board_step}
use Rattle.rounds.specs.declared.trigger_steps.RoundOutcome.{RoundOutcome}
use Rattle.rounds.specs.declared.trigger_steps.RoundEnd.TheVariants as E
use Rattle.rounds.specs.Round.{Utterance, Voices, Bench, bench, round_from, after, ended as ended_by, forgets, cut, push_all, pushes, decoded, notes, weighs, changes, fetches, result_of, finds, last_steps, round, round_outcome}

-- ---- the keeping machine, and forged records

abbrev pub said : ℕ → ℕ → ℕ → List ℕ → ℕ → ℕ → Answer
said r f n v c m = record { told = record { refusal = r; frames_held = f; rows_held = n; not_finite = c; nan_likelihoods = m }; vector = v }

-- refusal 10 of a call on a stream: waiting frames, table lengths and room lengths are what is lent
abbrev pub declined : IvectorStream → List ℕ → TableLengths → RoomLengths → Bool
declined s waiting tables rooms = is_foreign s waiting || not (same_tables tables s.info.tables) || not (same_rooms rooms s.lengths)

-- ---- the calls on a silence table, and their answers, as those of a stream

pub data Query : Type 0 where
  traceback : ℕ → List ℤ → List ℕ → List ℕ → Query
  weights : ℕ → ℕ → ℕ → ℕ → Query

abbrev of_length : SilenceWeighting → ℕ → SilenceWeighting
of_length s n = record { silence_weight = s.silence_weight; subsampling = s.subsampling; phones = s.phones; table = s.table; length = decoder n }

abbrev broken : SilenceWeighting → Bool
broken s = table_broken s s.table s.table s.table

unfoldable pub heard : SilenceWeighting → List ℤ → Table → List Query → List (ℕ × List Change)
heard s phones t [] = []
heard s phones t (traceback n ps starts ends ∷ qs) =
    let r = first_of ((broken (of_length s (length t)), 10) ∷ traceback_tests s (length phones) (decoder n) (length ps) (length starts) (length ends)) in
    let t' : Table = taken r (traced phones (decoder n) (segments ps starts ends) t) t in
    (r, []) ∷ heard s phones t' qs
heard s phones t (weights ready first f w ∷ qs) =
    let r = first_of ((broken (of_length s (length t)), 10) ∷ delta_tests s (input ready) (input first) t f w) in
    let given : List Change = taken r (asked s (input ready) (input first) t) [] in
    let t' : Table = taken r (asked_table s (input ready) (input first) t) t in
    (r, given) ∷ heard s phones t' qs

-- ---- steps over registers and rounds, on the program's rooms

-- a model's tables and scratch of so many numbers, as each call is lent them; the stream; the silence table in its rooms, and the silence phones
pub record Desk : Type 0 where
  pub tables : Tables
  pub scratch : ℕ
  pub program : Program
  pub silence : SilenceWeighting
  pub rooms : TableRooms
  pub phones : List ℤ

abbrev desk : Tables → ℕ → Program → SilenceWeighting → TableRooms → List ℤ → Desk
desk t n p s z ps = record { tables = t; scratch = n; program = p; silence = s; rooms = z; phones = ps }

-- before all calls: no rooms, no table
abbrev pub bare : Model → Desk
bare M =
    let z = rooms_from (rings_from [] [] [] []) (estimate_from [] [] [] []) in
    let s : SilenceWeighting = record { silence_weight = zero₃₂; subsampling = 1; phones = 0; table = 0; length = decoder 0 } in
    desk M.tables 0 (program (fresh_stream M.info (room_lengths_of z 0)) z) s (table_rooms [] [] []) []

pub data Event : Type 0 where
  make_stream : Model → Rooms → ℕ → Event  -- in lent rooms, with scratch of so many numbers
  make_table : List ℤ → Float → ℕ → ℕ → Event  -- phones, weight, subsampling; of so many places, all zeros
  plain : Call → Event
  ask : Query → Event
  step : List ℕ → List Float → ℕ → Event  -- a block, a frame buffer, a vector buffer of so many zeros
  turn : Utterance → Voices → ℕ → ℕ → ℕ → Event  -- a round; two lists for the changes and an output, of so many zeros
  begun : ℕ → List Float → Event  -- a round whose silence table is forged, up to there: start and frames. No answer

pub data Told : Type 0 where
  refusing : ℕ → Told  -- a fresh stream or table, refused or (0) a table
  answered : Answer → Told  -- a fresh stream, a plain call
  giving : ℕ → List Change → Told  -- a call on the table: the refusal number, the changes given
  leaving : ℕ → List ℕ → List ℕ → Told  -- a step: its answer, the block and the vector buffer after it
  ending : RoundOutcome → List Change → List ℕ → Told  -- a round: how it ended, the changes given, the output

pub record Played : Type 0 where
  pub desk : Desk
  pub told : List Told

abbrev play : Desk → Told → Played
play d x = record { desk = d; told = x ∷ [] }

unfoldable pub with_stream : Desk → Model → Rooms → ℕ → Result StreamCall ℕ → Played
with_stream d M z n (Ok c) =
    play (desk M.tables n (program c.stream (fresh_rooms M.info z)) d.silence d.rooms d.phones) (answered (record { told = c.answer; vector = [] }))
with_stream d M z n (Err r) = play d (refusing r)

unfoldable pub with_table : Desk → List ℤ → Result SilenceWeighting ℕ → Played
with_table d ps (Ok s) =
    let n = s.table in
    play (desk d.tables d.scratch d.program s (table_rooms (replicate n false) (replicate n false) (replicate n zero₃₂)) ps) (refusing 0)
with_table d ps (Err r) = play d (refusing r)

abbrev with_call : Desk → TableCall → Played
with_call d c =
    let a = c.answer in
    play (desk d.tables d.scratch d.program a.silence c.rooms d.phones) (giving a.refusal (waiting_in a.changes c.frames c.weights))

abbrev with_bench : Desk → Bench → Desk
with_bench d b = desk d.tables d.scratch (program b.stream b.rooms) b.silence b.table d.phones

abbrev bench_of : Desk → ℕ → ℕ → ℕ → Bench
bench_of d f w n = bench d.program.stream d.program.rooms d.silence d.rooms (replicate f 0) (replicate w zero₃₂) 0 (replicate n 0)

unfoldable pub on_desk : Desk → Event → Played
on_desk d (make_stream M z n) = with_stream d M z n (new_answer M.info (table_lengths_of M.tables) (room_lengths_of z n))
on_desk d (make_table ps w sub n) = with_table d ps (new_table (length ps) w sub n)
on_desk d (plain c) =
    let p = d.program in
    let x = step_of d.tables d.scratch p c in
    play (desk d.tables d.scratch (stepped p x) d.silence d.rooms d.phones) (answered (reply p x))
on_desk d (ask (traceback n ps starts ends)) =
    with_call d (table_done d.silence d.rooms [] [] (compute_current_traceback d.silence d.rooms d.phones ps starts ends (decoder n)))
on_desk d (ask (weights ready first f w)) =
    with_call d (table_done d.silence d.rooms (replicate f 0) (replicate w zero₃₂) (get_delta_weights d.silence d.rooms (input ready) (input first) f w))
on_desk d (step b x m) =
    let a = board_step d.tables d.scratch x (board d.program b (replicate m 0)) in
    play (desk d.tables d.scratch a.stream d.silence d.rooms d.phones) (leaving (block_refusal b) a.block a.vector)
on_desk d (turn u v f w n) =
    let r = round d.tables d.scratch d.phones u v (bench_of d f w n) in
    let b = r.bench in
    play (with_bench d b) (ending (round_outcome r.result) (waiting_in b.given b.frames b.weights) b.out)
on_desk d (begun start xs) =
    let r = after 1 (forgets start (bench_of d 0 0 0)) (λ b. after 2 (pushes xs b) (round_from (Ok E.NoVector))) in
    record { desk = with_bench d r.bench; told = [] }

-- what a list of events is answered, on a desk
unfoldable pub events : Desk → List Event → List Told
events d [] = []
events d (e ∷ es) = let x = on_desk d e in x.told ++ events x.desk es

-- every definition that is met on the way, and those above
unfoldable pub opened : Unit {0}
unfolding computed ring_at waiting_in answer_of fresh_stream new_answer fresh_rooms pushed_frames pushed_rows push_frame set_input_finished
    update_frame_weights forget_mark forget_before set_cmn_window fetch_refusal fetch_estimate fetch_changes fetch_stream fetch_rooms fetch_vector
    fetch_nans get_frame reply step_of distance least voice_refusal within_limit nearest_voice bytes_of interrupt_of held_count room_for_push
    command_of call_flags rewritten block_refusal performed board_step ended_by forgets cut push_all pushes decoded notes weighs changes fetches
    result_of finds last_steps round round_outcome heard with_stream with_table on_desk events
opened = tt
";
