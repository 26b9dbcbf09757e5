"""What leads on from what a run tells: a question, the page to read, and the remedy, by a text of the line."""

import collections
import re

Hint = collections.namedtuple("Hint", "text question page remedy")
PENDING = '"Returning STATUS_PENDING from a Dispatch Routine"'
ROUTINES = '"Implementing an IoCompletion Routine"'
OWNER = '"Passing IRPs down the Driver Stack"'
CANCEL = '"Synchronizing IRP Cancellation"'
CANCEL_ROUTINE = '"Implementing a Cancel Routine"'
LOCKS = '"Using Remove Locks"'
COMPLETE = '"Completing IRPs"'
WAIT = '"Handling IRPs that the Driver Must Complete After Lower Drivers Have Finished"'
TWICE = Hint("FAULT CompletedTwice", "Two places complete the packet. Which of them may, and how does the other one know?",
             CANCEL, "Only one party may complete it: of a dispatch and its cancel routine the one that IoSetCancelRoutine(irp, "
             "NULL) chooses; of a dispatch and its completion routine the dispatch, if the routine returns "
             "STATUS_MORE_PROCESSING_REQUIRED.")

# The first line that one of these texts has counts, and of several texts the first one.
HINTS = [
    TWICE,
    Hint("FAULT ListCorrupt", "An entry was taken out of its list twice, or a list is broken. Who else takes entries out?",
         CANCEL, "Take an entry out only under the list's lock, and only where IoSetCancelRoutine(irp, NULL) isn't NULL."),
    Hint("FAULT Lost", "Who has the packet when your dispatch returns? Somebody has to complete it.", COMPLETE,
         "On this way nobody completes the packet. Call IoCompleteRequest before you return its status."),
    Hint("FAULT NotPassedDown", "The drivers below wait for this packet too. Who sends it to them?", OWNER,
         "Pass it down: IoSkipCurrentIrpStackLocation or IoCopyCurrentIrpStackLocationToNext, then IoCallDriver."),
    Hint("FAULT AfterSkip", "After IoSkipCurrentIrpStackLocation the next location is your own. Which call gives the routine "
         "one of its own?", ROUTINES, "Use IoCopyCurrentIrpStackLocationToNext instead of the skip where you set a routine."),
    Hint("FAULT GivenAway", "While your routine runs, the packet is being completed already. Who has to complete it again?",
         ROUTINES, "A routine that hands its packet on returns STATUS_MORE_PROCESSING_REQUIRED."),
    Hint("FAULT NotPrepared", "The next stack location has nothing in it. What fills it before you send?", OWNER,
         "Call IoCopyCurrentIrpStackLocationToNext before IoCallDriver."),
    Hint("FAULT Returned.*marked the packet pending in its routine", "Your routine marks, and your dispatch returns a final "
         "status. Which of the two is right here?", PENDING, "Don't mark in the routine: the dispatch waits, and its answer is "
         "final."),
    Hint("FAULT Returned.*marked the packet pending and returned", "A mark goes with STATUS_PENDING and with nothing else. Does "
         "somebody complete this packet later?", PENDING, "Mark only on the way on which you return STATUS_PENDING."),
    Hint("FAULT Returned", "What does STATUS_PENDING promise, and what in the packet says the same?", PENDING,
         "Call IoMarkIrpPending before you hand the packet to whoever completes it, and return STATUS_PENDING."),
    Hint("FAULT (Ended|NotOwner).*IoMarkIrpPending", "Another thread may have completed the packet by then. Before which call "
         "must the mark be there?", PENDING, "Move IoMarkIrpPending before the call that hands the packet over."),
    Hint("FAULT MarkedLate", "When may another thread complete the packet? The mark has to be there before.", PENDING,
         "Move IoMarkIrpPending before the place from which on another thread can find the packet."),
    Hint("FAULT Mark .*PendingReturned is FALSE", "Nobody below pended this packet. When is it the routine's work to mark?",
         ROUTINES, "Mark only where Irp->PendingReturned is TRUE."),
    Hint("FAULT Mark", "The driver below returned STATUS_PENDING. How does the driver above learn of it, now that a routine "
         "runs?", ROUTINES, "In the routine: if (Irp->PendingReturned) IoMarkIrpPending(Irp)."),
    Hint("FAULT BadStatus", "STATUS_PENDING is no end. Where does the final status stand once the drivers below are done?",
         COMPLETE, "Read Irp->IoStatus.Status after the wait, and complete with that."),
    Hint("FAULT Status", "Which status has the packet, and which one does your dispatch return?", COMPLETE,
         "Return what you wrote to IoStatus.Status, from a local variable."),
    Hint("FAULT TouchedAfterSend", "Whose packet is it once IoCallDriver has been called? Where does it come back to you?",
         OWNER, "Read the packet in a completion routine."),
    Hint("FAULT Touched", "The packet had ended when you used it. Where was the last place at which it was yours?", COMPLETE,
         "Read what you need before the packet is completed or handed over. A packet whose cancel routine you didn't take out "
         "is the routine's."),
    Hint("FAULT Ended", "The packet had ended by then. Where was the last place at which it was yours?", COMPLETE,
         "Complete it once, and let nothing touch it afterwards."),
    Hint("FAULT NoIrp", "The packet was freed. Where was the last place at which it was yours?", COMPLETE,
         "Whoever allocated the packet frees it; use it only before you complete it."),
    Hint("FAULT NotOwner", "Another one has the packet by then. Until where is it yours, and how would it come back?", OWNER,
         "Set a completion routine that returns STATUS_MORE_PROCESSING_REQUIRED, and wait for it."),
    Hint("FAULT AlreadyCancelled", "A cancel may come before your cancel routine is set, and finds none. Who notices it "
         "afterwards, and who has the packet then?", CANCEL, "After you set the routine: if (Irp->Cancel && "
         "IoSetCancelRoutine(Irp, NULL) != NULL) complete the packet yourself."),
    Hint("FAULT CancelledAndHeld", "The packet was cancelled, and nobody completes it. Which line should notice?", CANCEL,
         "Complete it where IoSetCancelRoutine(Irp, NULL) gave you the routine, else in the routine."),
    Hint("FAULT CancelRoutineSet", "The cancel routine may be called at any moment. Who takes it out before the packet is "
         "completed?", CANCEL, "Complete it only after IoSetCancelRoutine(irp, NULL) returned something else than NULL."),
    Hint("FAULT CancelSpinLock", "The I/O manager holds a lock when it calls your cancel routine. Who gives it back?",
         CANCEL_ROUTINE, "Call IoReleaseCancelSpinLock(Irp->CancelIrql) in the cancel routine."),
    Hint("FAULT KeptOverCleanup", "The handle is closed. Which of its requests may still wait, and for whom?",
         '"DispatchCleanup Routines"', "In the dispatch for IRP_MJ_CLEANUP complete each held request of this FILE_OBJECT with "
         "STATUS_CANCELLED."),
    Hint("FAULT CleanupOfAnother", "Whose handle is closed, and whose request did you cancel?", '"DispatchCleanup Routines"',
         "Compare the FileObject of each request's stack location with that of the IRP_MJ_CLEANUP."),
    Hint("FAULT KeptOverSurprise", "The device is gone. What do its requests still wait for?",
         '"Handling an IRP_MN_SURPRISE_REMOVAL Request"', "Complete each held request with STATUS_DELETE_PENDING."),
    Hint("FAULT NotRestored", "The device was asked, and then told that nothing happens after all. What does it do now?",
         '"Handling an IRP_MN_CANCEL_STOP_DEVICE Request"', "Set the state back to what it was before the query."),
    Hint("FAULT InFlight.*Io(Free|Reuse)Irp", "Who allocated the packet frees it. What does a driver do with a packet that it "
         "got?", COMPLETE, "Call IoCompleteRequest, not IoFreeIrp."),
    Hint("FAULT InFlight", "The device goes while a packet is under way in it. What should the removal wait for, and what ends "
         "that wait?", LOCKS, "Hold the remove lock until the packet has come back, and delete the device after "
         "IoReleaseRemoveLockAndWait."),
    Hint("FAULT NotDrained", "Who still has a reference when the device goes? Follow each way that a packet can take.", LOCKS,
         "Each IoAcquireRemoveLock needs its IoReleaseRemoveLock on each way; the removal calls IoReleaseRemoveLockAndWait."),
    Hint("FAULT NotHeld", "A reference is given back that nobody holds. Which acquire belongs to it, and did it succeed?", LOCKS,
         "Release once for each acquire that succeeded, with the same tag."),
    Hint("FAULT StackBlock", "The event lies in a frame that has returned. Who still had to wait there?", WAIT,
         "Wait for the event before the function returns."),
    Hint("FAULT UnderSpinLock", "You hold a spin lock there. What may nobody do under one, and where can you do it instead?",
         '"Introduction to Spin Locks"', "Release the lock first, then complete or send."),
    Hint("FAULT (IrqlTooHigh|IrqlReturn|WrongIrql|LockKept)", "Which lock is held there, and at which level does the routine "
         "return?", '"Managing Hardware Priorities"', "Give back each lock on each way, with the level that its acquire gave."),
    Hint("FAULT NotAcquired", "A lock is given back that nobody holds there. Who calls this function, and with which lock held?",
         CANCEL_ROUTINE, "Leave the cancel routine to IoCancelIrp, which holds the lock: complete the packet where you have it."),
    Hint("FAULT LeftBehind.*work item", "The driver is unloaded, and a work item of it is still there. Who should have freed it, "
         "on each way?", '"System Worker Threads"', "Call IoFreeWorkItem once for each IoAllocateWorkItem."),
    Hint("FAULT (LeftBehind|PoolLeak)", "The driver is unloaded, and something of it is still there. Who should have freed it?",
         '"Writing an Unload Routine"', "Free what you allocated on each way that the packet can take."),
    Hint("FAULT QueuedTwice.*is freed", "Who needs the work item last, and when is that over?", '"System Worker Threads"',
         "Free it in its routine."),
    Hint("FAULT QueuedTwice", "A work item serves one packet at a time. How many reads can be under way?",
         '"System Worker Threads"', "Allocate a work item for each read, and free it in its routine."),
    Hint("FAULT UsedInFreedMemory.*no work item", "Memory may be short. What do you have then instead of a work item, and which "
         "line notices?", '"System Worker Threads"', "If IoAllocateWorkItem returns NULL, complete the read with "
         "STATUS_INSUFFICIENT_RESOURCES."),
    Hint("FAULT (WrongTag|NotPool|FreedTwice)", "Which line allocated this memory, how, and how often is it freed?",
         '"ExFreePoolWithTag"', "Free it once, with the tag and the pointer of its allocation."),
    Hint("FAULT Used(InFreedMemory|AfterFree)", "What you use there is gone already. Who freed it, and who still needed it?",
         '"Managing Memory for Drivers"', "Free it where nobody can use it any more."),
    Hint("FAULT (PnpStatusChanged|RemoveFailed)", "Who decides what becomes of this request, and which status may you change?",
         '"Handling PnP IRPs"', "Pass requests that you don't handle down with their status unchanged."),
    Hint("FAULT (PoolOverrun|InformationTooLong|Unwritten)", "How long is the caller's buffer, and how much did you write there?",
         '"Methods for Accessing Data Buffers"', "Compare the length in the stack location before you write, and set Information "
         "to what you wrote."),
    Hint("FAULT Unprobed", "Who gave you this pointer, and who checked it?", '"Using Neither Buffered Nor Direct I/O"',
         "ProbeForRead or ProbeForWrite first, in __try."),
    Hint("FAULT (Hang|Stuck)", "Who waits, and for which packet? Which line should have completed it, or set the event?", WAIT,
         "Find the way on which the packet isn't completed, the event isn't set, or a lock is never given back."),
    Hint("FAULT Check", "The lesson's test.c asks for what the line says. What did your driver do instead?", "the lesson's test.c",
         "Read the test: the line says what it sent and what should come back."),
    Hint("STOPPED: its time is over", "The line that it names goes on for ever, or its caller does. What should end that, and who "
         "does it?", WAIT, "Let the driver return, and go on when it is called again."),
    Hint("STOPPED: a driver forks", "A driver has no process of its own that could be copied. Whose thread should do this work?",
         '"System Worker Threads"', "Queue a work item."),
    Hint("STOPPED|it crashed", "The run couldn't go on. What does the line that it names use, and who checked that it is there?",
         "drivers/README.md", "Check the pointer, or initialize the object, before the line uses it."),
    Hint("entries are fewer than|entries of at least", "The host found less to do than it wanted. Does DriverEntry create a "
         "device, and set each dispatch?", '"Writing a DriverEntry Routine"', "Call IoCreateDevice, and fill MajorFunction."),
    Hint("this lesson is about|never ran", "What does the lesson ask your driver to do, and on which way through your code does "
         "it do that?", "the lesson's page", "Begin again from the lesson's driver.c: one or two lines mend it."),
    Hint("Something is missing|Some of the calls", "The lesson's file did something that yours doesn't. What, and who needs it?",
         "the lesson's page", "Put back what the line names, and mend the mistake beside it."),
    Hint("differs in", "An I/O manager that follows the rules gives another answer to this call. What happened to the packet in "
         "the calls before it?", "docs/RULES.md", "Ask `bin/irp why` of the history: it says what the manager would answer."),
    Hint("not right in", "Follow the order that is shown: who has the read at its end, and which answer told that party so?",
         "docs/RIGHT.md", "Add a step for the answer that no step looks at."),
    Hint("illegal", "No line of yours is wrong by itself, and still no I/O manager gives these answers. Which call comes too "
         "early or too late?", "docs/RULES.md", "Ask `bin/irp why` of the transcript."),
]
# The same of one lesson, before those.
HINTS_OF = {
    2: [Hint(r"FAULT Lost", "Who has the packet when the dispatch returns: you, or the work item? What does the dispatch return "
             "then?", PENDING, "If the work item has it: mark, queue, return STATUS_PENDING. If not: complete it."),
        Hint(r"FAULT Check.*Information", "What does the caller learn from IoStatus.Information?", COMPLETE,
             "Set Information to the length that was read.")],
    3: [Hint(r"FAULT Check.*Bytes == 3 \+ 5", "Two reads come back at once. What may happen between your look at Bytes and your change "
             "of it?", '"Introduction to Spin Locks"', "Add by InterlockedExchangeAdd, or under a spin lock."),
        Hint(r"FAULT Check.*Bytes", "Which reads did your routine see, and what does Information say in each?", ROUTINES,
             "Add Irp->IoStatus.Information in the completion routine, on success and on error.")],
    4: [Hint(r"FAULT Check.*LastLength", "Who knows how long the answer is, and from when on? When does your line run?", OWNER,
             "Set LastLength from Irp->IoStatus.Information in a completion routine, or after a wait.")],
    5: [Hint(r"FAULT Check.*!answers_reads", "The drivers below haven't started, or failed. What does your device answer, and who "
             "told it that it may?", WAIT, "Set IsStarted only after the wait, and only where the status is a success."),
        Hint(r"FAULT Check.*answers_reads", "The drivers below have started. Which line starts your device?", WAIT,
             "Set IsStarted after the wait, where the status is a success."),
        Hint(r"FAULT Check.*(status|pnp)", "Whose status does the caller get: yours, or that of the drivers below?", WAIT,
             "Complete the packet with the status that it came back with."),
        Hint(r"FAULT Check.*is_done", "The start had ended before the drivers below answered it. What did your dispatch wait for?",
             WAIT, "Wait without a time limit until the completion routine sets the event.")],
    6: [TWICE,
        Hint(r"FAULT Check.*b, STATUS_SUCCESS", "Two reads were there: one was being cancelled, the other one is held. Which of "
             "them did your cancel routine forget?", CANCEL_ROUTINE, "Clear Held only where Held == Irp."),
        Hint(r"FAULT Check.*STATUS_CANCELLED", "How does the caller learn that its read was cancelled?", CANCEL_ROUTINE,
             "Complete it with STATUS_CANCELLED."),
        Hint(r"FAULT Check.*a, STATUS_SUCCESS", "A write came while a read was held. Who should complete the read?", COMPLETE,
             "TakeHeld takes the held read out, and its caller completes it.")],
    7: [TWICE, Hint(r"FAULT Check.* \|\| ", "A cancel had taken the oldest read, and another read still waited. Whom does the "
                    "write answer then?", CANCEL, "Go on to the next entry where IoSetCancelRoutine returns NULL."),
        Hint(r"FAULT Check.*is_answered", "Which of the waiting reads did the write answer, and which one is the oldest?",
             '"Cancel-Safe IRP Queues"', "Insert at the tail, and take one from the head.")],
    8: [Hint(r"yours is detached", "Who may still send something to the device below when you detach from it, and until when?",
             LOCKS, "Detach, and then delete, after IoReleaseRemoveLockAndWait."),
        Hint(r"FAULT Check.*NT_SUCCESS", "The removal has begun. Who may still send something down, and who told your driver that "
             "it can't?", LOCKS, "Acquire the lock first. If that fails, complete the request with the status that it gave."),
        Hint(r"FAULT Check.*NReads", "This read came behind the removal, and the device below got it. Which call would have told "
             "you?", LOCKS, "Don't send where IoAcquireRemoveLock fails."),
        Hint(r"FAULT Hang.*(ReleaseRemoveLockAndWait|AndWait)", "The removal waits for a read that is below. What makes the device "
             "below give it back, and has it heard of the removal?", LOCKS,
             "Pass IRP_MN_REMOVE_DEVICE down first, then call IoReleaseRemoveLockAndWait.")],
    11: [Hint(r"FAULT (UsedInFreedMemory|UsedAfterFree|LockInFreedMemory|WrittenAfterFree|FreedTwice)", "Who used the "
              "file's counter after it was freed, and which request says that nobody will?", '"DispatchClose Routines"',
              "Free it in the dispatch for IRP_MJ_CLOSE."),
         Hint(r"FAULT Check.*reads", "Whose reads does the counter count, and from when until when is it there?",
              '"DispatchCreate, DispatchClose, and DispatchCreateClose Routines"', "Keep a counter for each FILE_OBJECT, from "
              "IRP_MJ_CREATE to IRP_MJ_CLOSE.")],
    12: [Hint(r"FAULT IrqlTooHigh", "At which level may a completion routine run, and what can't it do there? Who else knows when "
              "the device is done?", '"IRQLs for IoCompletion Routines"', "Hand the packet to PoRequestPowerIrp's callback, return "
              "STATUS_MORE_PROCESSING_REQUIRED, and complete the packet in the callback."),
         Hint(r"FAULT Check", "The system's packet has ended. Which state did the device have by then, and who should have "
              "waited for whom?", '"Handling a System Set-Power IRP in a Device Power Policy Owner"', "Complete the system's "
              "packet only in the callback of PoRequestPowerIrp.")],
    13: [Hint(r"FAULT Check.*tell\(IRP_MN_\w+\) && answers_reads", "Nothing came of the question, or the device was started. In "
              "which state is it then?", '"State Transitions for PnP Devices"', "On a cancel, go back to the state from before the "
              "query."),
         Hint(r"FAULT Check.*AttachedDevice", "The device is removed. What still lies above the device below, and who should have "
              "taken it away?", '"Handling an IRP_MN_REMOVE_DEVICE Request"', "Pass the packet down, then call IoDetachDevice and "
              "IoDeleteDevice."),
         Hint(r"FAULT Check.*!answers_reads", "May the device answer reads in this state? Who told it to?",
              '"State Transitions for PnP Devices"', "Only a device that is started, that nobody asks to stop or go, and that is "
              "there, answers reads.")],
    14: [Hint(r"outside of __try", "What does a probe do with a pointer that is bad, and who catches that?",
              '"Using Neither Buffered Nor Direct I/O"', "Probe and copy inside one __try block."),
         Hint(r"FAULT Check.*the_version", "From which buffer does the I/O manager copy a buffered answer to the program?",
              '"Using Buffered I/O"', "Write into SystemBuffer."),
         Hint(r"FAULT (Check.*control|InformationTooLong|PoolOverrun)", "How long is the output that the caller can take, and which "
              "of the two lengths says so?", '"Buffer Descriptions for I/O Control Codes"', "Compare with OutputBufferLength before "
              "you write, and set Information to what you wrote.")],
}
HINTS_OF[9] = HINTS_OF[6]
HINTS_OF[15] = [
    Hint(r"^line \d+, column \d+: .* expected .*(a line above gives|a step above)", "This line is no step that can be made. Which "
         "names have the lines above it given?", "docs/WORDS.md", "Let a step name only what stands above it, on the same seat."),
    Hint(r"^line \d+, column \d+: ", "Your line can't be read from that place on. Which line of the file is like it, and what "
         "stands there in that one?", "docs/WRITING.md", "Take a line with finish_taken over whole, and change its condition alone."),
]


def hint_of(number, said):
    """Returns the hint for the first fault, from which the others may follow, or None."""
    known = HINTS_OF.get(number, []) + HINTS
    return next((it for line in said.splitlines() for it in known if re.search(it.text, line)), None)
