"""What `solero_explain` says of worked classes: the marks of their sections with the reasons, and parts of runs."""
# Sections that their own instructions mark, blocks in a block, and blocks on another object.
OWN = """\
Marks.reads([I)I method M0
Marks.nests()I block 3 M0
Marks.nests()I block 7 M0
Marks.storesField(I)V method M1
  Marks.storesField(I)V at 2 putfield M1: it writes a field, a static field or an element
Marks.storesStatic(I)V method M1
  Marks.storesStatic(I)V at 1 putstatic M1: it writes a field, a static field or an element
Marks.storesElement([I)V method M1
  Marks.storesElement([I)V at 3 iastore M1: it writes a field, a static field or an element
Marks.makesTwo()LMarks; method M2
  Marks.makesTwo()LMarks; at 0 new M2: it makes an object or an array
Marks.makesArray()[I method M2
  Marks.makesArray()[I at 1 newarray M2: it makes an object or an array
Marks.entersOther(LMarks;)I block 3 M3
  Marks.entersOther(LMarks;)I at 7 monitorenter M3: it enters a monitor that is not known to be the section's
Marks.entersOther(LMarks;)I block 7 M8
  its monitor is not known to be this
Marks.callsOther(LMarks;)I method M3
  Marks.callsOther(LMarks;)I at 2 invokevirtual M3: it enters a monitor that is not known to be the section's
Marks.prints()V method M4
  Marks.prints()V at 4 invokevirtual M4: it prints, waits or notifies
Marks.waits()V method M4
  Marks.waits()V at 1 invokevirtual M4: it prints, waits or notifies
Marks.notifies()V method M4
  Marks.notifies()V at 1 invokevirtual M4: it prints, waits or notifies
Marks.notifiesAll()V method M4
  Marks.notifiesAll()V at 1 invokevirtual M4: it prints, waits or notifies
Marks.readsStatic()I method M5
  Marks.readsStatic()I at 0 getstatic M5: it reads what the section's lock is not known to guard
    it is a static field, and the section is not on its class
Marks.readsElement([I)I method M5
  Marks.readsElement([I)I at 2 iaload M5: it reads what the section's lock is not known to guard
    it is an element of an array that is not known to be the section's own
Marks.readsLoose()I method M5
  Marks.readsLoose()I at 1 getfield M5: it reads what the section's lock is not known to guard
    Marks.loosen(I)V at 2 putfield writes the field, not known to be under the lock that guards it
Marks.readsOther(LMarks;)I method M5
  Marks.readsOther(LMarks;)I at 1 getfield M5: it reads what the section's lock is not known to guard
    it is the field of an object that is not known to be the section's
Marks.onKey()I block 6 M8
  its monitor is not known to be this
Marks.printsOnKey()I block 6 M8
  its monitor is not known to be this
"""
# Sections that call methods on `this` and off it, some of which call themselves.
BY_CALLEES = """\
Calls.block()I block 3 M0
Calls.onThis()I method M0
Calls.offThis(LCalls;)I method M0
Calls.twice()I method M0
Calls.onThisStores()V method M6
  Calls.onThisStores()V at 2 invokevirtual calls
  Calls.store(I)V at 2 putfield M1: it writes a field, a static field or an element
Calls.offThisStores(LCalls;)V method M6
  Calls.offThisStores(LCalls;)V at 2 invokevirtual calls
  Calls.store(I)V at 2 putfield M1: it writes a field, a static field or an element
Calls.offThisReads(LCalls;)I method M6
  Calls.offThisReads(LCalls;)I at 1 invokespecial calls
  Calls.total()I at 1 getfield M5: it reads what the section's lock is not known to guard
    it is the field of an object that is not known to be the section's
Calls.offThisEnters(LCalls;)I method M6
  Calls.offThisEnters(LCalls;)I at 1 invokevirtual calls
  Calls.block()I at 3 monitorenter M3: it enters a monitor that is not known to be the section's
Calls.laterPrints()V method M6
  Calls.laterPrints()V at 1 invokestatic calls
  Calls.printLater(I)V at 1 invokestatic calls
  Calls.print(I)V at 4 invokevirtual M4: it prints, waits or notifies
Calls.offThisMakes()LCalls; method M6
  Calls.offThisMakes()LCalls; at 0 invokestatic calls
  Calls.make()LCalls; at 0 new M2: it makes an object or an array
Calls.offThisReadsElement([I)I method M6
  Calls.offThisReadsElement([I)I at 1 invokestatic calls
  Calls.first([I)I at 2 iaload M5: it reads what the section's lock is not known to guard
    it is an element of an array that is not known to be the section's own
Calls.recurses(I)I method M7
  Calls.recurses(I)I at 12 invokevirtual calls
  Calls.recurses(I)I at 12 invokevirtual calls
  Calls.recurses(I)I again
Calls.onThisRecurses(I)I method M7
  Calls.onThisRecurses(I)I at 2 invokespecial calls
  Calls.down(I)I at 12 invokespecial calls
  Calls.down(I)I again
Calls.offThisRecurses(I)I method M7
  Calls.offThisRecurses(I)I at 1 invokestatic calls
  Calls.even(I)I at 11 invokestatic calls
  Calls.odd(I)I at 11 invokestatic calls
  Calls.even(I)I again
Calls.storesAndPrints(I)V method M1
  Calls.storesAndPrints(I)V at 2 putfield M1: it writes a field, a static field or an element
"""
# Sections on `this` that call a section on the class.
BY_CLASSES = """\
Ticks.count()I method M0
Ticks.calls()I method M3
  Ticks.calls()I at 0 invokestatic M3: it enters a monitor that is not known to be the section's
Ticks.callsLater()I method M6
  Ticks.callsLater()I at 0 invokestatic calls
  Ticks.later()I at 0 invokestatic M3: it enters a monitor that is not known to be the section's
"""
# Sections on a class, and one on `this` that reads what the lock of the class guards.
ON_CLASS = """\
ClassMarks.reads([I)I method M0
ClassMarks.calls()I method M0
ClassMarks.readsFinal()LClassMarks; method M0
ClassMarks.stores(I)V method M1
  ClassMarks.stores(I)V at 1 putstatic M1: it writes a field, a static field or an element
ClassMarks.makes()[I method M2
  ClassMarks.makes()[I at 1 newarray M2: it makes an object or an array
ClassMarks.enters(LClassMarks;)I method M3
  ClassMarks.enters(LClassMarks;)I at 3 monitorenter M3: it enters a monitor that is not known to be the section's
ClassMarks.enters(LClassMarks;)I block 3 M8
  its monitor is not known to be this
ClassMarks.callsOther(LClassMarks;)I method M3
  ClassMarks.callsOther(LClassMarks;)I at 1 invokevirtual M3: it enters a monitor that is not known to be the section's
ClassMarks.prints()V method M4
  ClassMarks.prints()V at 6 invokevirtual M4: it prints, waits or notifies
ClassMarks.notifies(Ljava/lang/Object;)V method M4
  ClassMarks.notifies(Ljava/lang/Object;)V at 1 invokevirtual M4: it prints, waits or notifies
ClassMarks.readsOpen()I method M5
  ClassMarks.readsOpen()I at 0 getstatic M5: it reads what the section's lock is not known to guard
    the field is not private
ClassMarks.readsLoose()I method M5
  ClassMarks.readsLoose()I at 0 getstatic M5: it reads what the section's lock is not known to guard
    ClassMarks.loosen(I)V at 1 putstatic writes the field, not known to be under the lock that guards it
ClassMarks.readsField(LClassMarks;)I method M5
  ClassMarks.readsField(LClassMarks;)I at 1 getfield M5: it reads what the section's lock is not known to guard
    it is the field of an object that is not known to be the section's
ClassMarks.readsElement([I)I method M5
  ClassMarks.readsElement([I)I at 2 iaload M5: it reads what the section's lock is not known to guard
    it is an element of an array that is not known to be the section's own
ClassMarks.callsStores()V method M6
  ClassMarks.callsStores()V at 1 invokestatic calls
  ClassMarks.stores(I)V at 1 putstatic M1: it writes a field, a static field or an element
ClassMarks.callsReads(LClassMarks;)I method M6
  ClassMarks.callsReads(LClassMarks;)I at 1 invokespecial calls
  ClassMarks.value()I at 1 getfield M5: it reads what the section's lock is not known to guard
    it is the field of an object that is not known to be the section's
ClassMarks.recurses(I)I method M7
  ClassMarks.recurses(I)I at 1 invokestatic calls
  ClassMarks.down(I)I at 11 invokestatic calls
  ClassMarks.down(I)I again
ClassMarks.get()I method M0
ClassMarks.set(I)V method M1
  ClassMarks.set(I)V at 2 putfield M1: it writes a field, a static field or an element
ClassMarks.readsTotal()I method M5
  ClassMarks.readsTotal()I at 0 getstatic M5: it reads what the section's lock is not known to guard
    it is a static field, and the section is not on its class
ClassMarks.callsTotal()I method M6
  ClassMarks.callsTotal()I at 0 invokestatic calls
  ClassMarks.total()I at 0 getstatic M5: it reads what the section's lock is not known to guard
    it is a static field, and the section is not on its class
"""
# Sections that read elements of arrays which their object owns, and of others.
OVER_ARRAYS = """\
Kept.set(I)V method M1
  Kept.set(I)V at 6 iastore M1: it writes a field, a static field or an element
Kept.sum()I method M0
Kept.length()I method M0
Kept.either(Z)I method M0
Kept.grow(I)V method M1
  Kept.grow(I)V at 4 putfield M1: it writes a field, a static field or an element
Kept.at(I)I method M0
Kept.calls()I method M0
Kept.asks(LKept;)I block 3 M6
  Kept.asks(LKept;)I at 5 invokevirtual calls
  Kept.last()I at 5 iaload M5: it reads what the section's lock is not known to guard
    it is an element of an array that is not known to be the section's own
Kept.asksItself()I method M0
Kept.readsHanded()I method M5
  Kept.readsHanded()I at 5 iaload M5: it reads what the section's lock is not known to guard
    Kept.handsOut()[I at 4 areturn takes an array of the field for more than its elements and its length
Kept.readsGiven()I method M5
  Kept.readsGiven()I at 1 getfield M5: it reads what the section's lock is not known to guard
    Kept.takes([I)V at 2 putfield writes the field, not known to be under the lock that guards it
Kept.readsHeld()I method M5
  Kept.readsHeld()I at 7 iaload M5: it reads what the section's lock is not known to guard
    it is an element of an array that is not known to be the section's own
Kept.readsLoose()I method M5
  Kept.readsLoose()I at 5 iaload M5: it reads what the section's lock is not known to guard
    Kept.writesLoose()V at 6 iastore writes an element, not known to be under the lock that guards it
Kept.readsOne(Z)I method M5
  Kept.readsOne(Z)I at 16 iaload M5: it reads what the section's lock is not known to guard
    Kept.readsOne(Z)I at 12 getfield leads to where one path brings an array of the field and another does not
"""
# The last sections of Marks where `onKey` returns before its block.
UNREACHED = """\
Marks.onKey()I block 6 M8
  no path reaches it
Marks.printsOnKey()I block 6 M8
  its monitor is not known to be this
"""
# Thread 1 enters its section without the lock, reads the first of two fields, and finds at the end that
# thread 2 set both: the lines from 23 on, and the report.
TORN = """\
before 23: thread 0 Q.init()V at 10 return, ended: returned
before 23: thread 1 Q.sum()I at 3 monitorenter
before 23: thread 2, begins its next method
23 thread 1 Q.sum()I at 3 monitorenter
24 thread 1 Q.sum()I at 3 monitorenter, enters 2071, section Q.sum()I block 3 M0, lock word of 2071 Free(0), attempt 1 begins by Free(0), plain: none
25 thread 1 in attempt 1 Q.sum()I at 4 aload, top @2071, 1 owed
26 thread 1 in attempt 1 Q.sum()I at 5 getfield, Q@2071.a 0, 2 owed
27 thread 1 in attempt 1 Q.sum()I at 8 aload, top @2071, 3 owed
28 thread 2, begins its next method Q.run(I)V, plain: begin
29 thread 2 Q.run(I)V at 0 iload, top 2
30 thread 2 Q.run(I)V at 1 iconst_1, top 1
31 thread 2 Q.run(I)V at 2 if_icmpne
32 thread 2 Q.run(I)V at 18 getstatic, Q.p @2071
33 thread 2 Q.run(I)V at 21 iconst_4, top 4
34 thread 2 Q.run(I)V at 22 invokevirtual
35 thread 2 Q.run(I)V at 22 invokevirtual, enters 2071, section Q.set(I)V method M1, lock word of 2071 Free(0), plain: none
36 thread 2 Q.run(I)V at 22 invokevirtual, takes the lock of 2071, lock word of 2071 Free(0) -> Held(2), locked, plain: enter
37 thread 2 Q.set(I)V at 0 aload, top @2071
38 thread 2 Q.set(I)V at 1 iload, top 4
39 thread 2 Q.set(I)V at 2 putfield, Q@2071.a 0 -> 4
40 thread 2 Q.set(I)V at 5 aload, top @2071
41 thread 2 Q.set(I)V at 6 iload, top 4
42 thread 2 Q.set(I)V at 7 putfield, Q@2071.b 0 -> 4
43 thread 2 Q.set(I)V at 10 return
44 thread 2 Q.set(I)V at 10 return, leaves 2071, lock word of 2071 Held(2) -> Free(1), plain: exit
45 thread 2 Q.run(I)V at 25 return, comes to its end: returned
46 thread 2 Q.run(I)V at 25 return, ends: returned, plain: none
47 thread 1 in attempt 1 Q.sum()I at 9 getfield, Q@2071.b 4, 4 owed
48 thread 1 in attempt 1 Q.sum()I at 12 iadd, top 4, 5 owed
49 thread 1 in attempt 1 Q.sum()I at 13 aload, top @2071, 6 owed
50 thread 1 in attempt 1 Q.sum()I at 14 monitorexit, 7 owed
51 thread 1 in attempt 1 Q.sum()I at 14 monitorexit, leaves 2071, lock word of 2071 Free(1), attempt 1 fails: not Free(0), plain: none
52 thread 1 Q.sum()I at 3 monitorenter, enters 2071, section Q.sum()I block 3 M0, lock word of 2071 Free(1), attempt 2 begins by Free(1), plain: none
53 thread 1 in attempt 2 Q.sum()I at 4 aload, top @2071, 1 owed
54 thread 1 in attempt 2 Q.sum()I at 5 getfield, Q@2071.a 4, 2 owed
55 thread 1 in attempt 2 Q.sum()I at 8 aload, top @2071, 3 owed
56 thread 1 in attempt 2 Q.sum()I at 9 getfield, Q@2071.b 4, 4 owed
57 thread 1 in attempt 2 Q.sum()I at 12 iadd, top 8, 5 owed
58 thread 1 in attempt 2 Q.sum()I at 13 aload, top @2071, 6 owed
59 thread 1 in attempt 2 Q.sum()I at 14 monitorexit, 7 owed
60 thread 1 in attempt 2 Q.sum()I at 14 monitorexit, leaves 2071, lock word of 2071 Free(1), attempt 2 finishes, plain: enter, 7 owed, exit
61 thread 1 Q.sum()I at 15 ireturn, top 8
62 thread 1 Q.run(I)V at 14 invokevirtual, prints 8, next ticket 0 -> 1
63 thread 1 Q.run(I)V at 17 return, comes to its end: returned
64 thread 1 Q.run(I)V at 17 return, ends: returned, plain: none
65 done begins
8
init returned
thread 1 returned
thread 2 returned
done returned
counts 0 instructions 8 elided 0 failed 0 locked 0 inflated 0
counts 1 instructions 27 elided 1 failed 1 locked 0 inflated 0
counts 2 instructions 14 elided 0 failed 0 locked 1 inflated 0
"""
# Thread 2 takes the lock, and thread 1 makes all its turns for it: the lines from 34 on.
HELD = """\
before 34: thread 0 Q.init()V at 10 return, ended: returned
before 34: thread 1 Q.sum()I at 3 monitorenter, looks at the lock of 2071
before 34: thread 2 Q.set(I)V at 0 aload
34 thread 1 Q.sum()I at 3 monitorenter, looks at the lock of 2071, lock word of 2071 Held(2), plain: none
36 thread 1 Q.sum()I at 3 monitorenter, looks at the lock of 2071, behind 1 failed turns, lock word of 2071 Held(2), comes to its end: turns, plain: none
37 thread 1 Q.sum()I at 3 monitorenter, ends: turns, plain: none
turns: 36 thread 1 Q.sum()I at 3 monitorenter, looks at the lock of 2071, held by thread 2
init returned
thread 1 turns
thread 2 returned
done not run
counts 0 instructions 8 elided 0 failed 0 locked 0 inflated 0
counts 1 instructions 10 elided 0 failed 0 locked 0 inflated 0
counts 2 instructions 14 elided 0 failed 0 locked 1 inflated 0
"""
