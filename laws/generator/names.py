"""The tables of the generator: what it translates, where that goes, and the names that Coq needs or has."""


def table(text):
    return dict(each.split(":") for each in text.split())


# The crates whose laws and worked examples are translated, and what these cite, in the order in which a reader meets them.
CRATES = "model terms durable align cuts once ledger unaligned other_cuts task chain".split()
# The files of proofs that have a theorem CRATE_LAW for each law.
PROOFS = "TheLaws TheTermsLaws TheOtherLaws TheLoopsLaws"
# What only a program needs of the definitions.
OF_PROGRAM = [("ckpt_ids/specs/Configuration.antt", "is_within_limits"), ("ckpt_ids/specs/Shapes.antt", "is_shape")]
# The Coq file of what the files of specifications declare whose crates and names begin so: the first that fits. Of all else it is Specs.
FILES = table("""
    logged/:Events durable/Crashes:Crashes durable/Groups:Groups durable/Operations:Operations align/:Align unaligned/:Unaligned cuts/:Cuts once/:Once
    ledger/:Ledger other_cuts/Restarted:Restarted other_cuts/Resumed:Resumed other_cuts/Res:Rescaling other_cuts/:OtherCuts task/Deeds:Loops task/Sink:Loops
    task/Runs:Loops task/Loops:Loops task/Faults:Loops task/Restores:Loops task/:Engines chain/Terms:ChainTerms chain/Durably:ChainTerms chain/Looped:ChainLoops
    chain/TermLoops:ChainLoops chain/Chosen:ChainLoops chain/SinkFaults:ChainLoops chain/Triggered:ChainLoops chain/Sto:Storages chain/Unaligned:Resumed
    chain/:Chain""")

# Facts whose data other statements take: they are types in Coq, and no propositions.
WITNESSES = {"HasSunkOver", "HasSunkUntilFault", "HasGiven", "HaveGiven", "HasPart", "Restarted.WasRecorded"}
# A field begins with the letters of its record, since a file of Coq has each name once.
FIELDS = table("""
    Configuration:c SubtaskId:s Acked:a Record:r Use:u Metadata:d Opening:o State:m Part:p TimedPart:t NewFile:n Fenced:f Issued:i Receipt:e Life:l World:w
    IsDurable:durable Alignment:g Task:t Channel:c Network:w Emitted:e Program:p Job:j By:b Attempt:a Transaction:x Sink:k Held:l AttemptTold:o IsGroup:group
    Site:x Net:n At:u Engine:v Snapped:z IsHistoryOf:of IsDurableAs:durable Place:p StoredAttempt:k LosesNothing:loses HasSunkOver:over HasSunkUntilFault:until
    HasGiven:given Saved:y Around:q Kept:p IsDeclined:declined Looped:l Loops:o AreLooping:looping IsHistoryOfLoops:loops LoopsAttempt:i SinkAt:s Sinking:k
    IsToldOf:told SinkAttempt:t AreFailing:failing CountsAs:counts IsRestored:restored Tried:tried Vertex:v Split:l Entry:n IsRecord:record Rescaling:r Spread:d
    IsOfKey:key IsShapeOf:shape Stage:g Restart:e IsBegun:begun IsEnded:ended Recorder:r HasPart:part Begin:b Stretch:s WasRecorded:recorded IsSeamless:seamless
    Sealing:g IsResume:resume""")
# Variants that several types have stand in a module.
VARIANTS = table("""
    Kind:kind Target:target Choice:choice TickEnd:tick_end Reply:reply Hold:hold_ FencedAnswer:answer Machine:machine FenceFault:fault ckpt_align/Event:event
    Input:input Deed:deed Phase:phase""")
RESERVED = set("as at by cofix else end exists fix for forall fun if in let match return then using where with End Prop Set Type".split())

TYPES = table("ℕ:N Bool:bool List:list Option:option Result:Result")
RUST = table("u64:ℕ u32:ℕ u16:ℕ usize:ℕ bool:Bool Option:Option Vec:List")
