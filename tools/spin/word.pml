/* How the threads of a program in C take keys and give them back: the functions of its runtime from `sect_try` to
   `sect_give_key`, statement by statement, for THREADS threads, each of which ROUNDS times takes some of KEYS keys, in
   any of the five modes, in ascending order, and then gives them back. All keys are in one bucket, as keys may be.

   The counts of a word are fields here, and not bits: that a mode is let in where the bits of the modes against it are
   0 is proved. What a thread does at once is what it does by one access to a word, or to what the bucket's mutex
   guards.

   FAULT plants a mistake: 1 lets SIX in beside IX; 2 a thread queues after it has looked, and lets go of the bucket in
   between; 3 who gives back says that nobody waits though somebody does; 4 who gives back rouses nobody. */
#ifndef THREADS
#define THREADS 3
#endif
#ifndef KEYS
#define KEYS 2
#endif
#ifndef ROUNDS
#define ROUNDS 1
#endif
#ifndef FAULT
#define FAULT 0
#endif
#define NOTHING 255

/* Modes: 0 IS, 1 IX, 2 S, 3 SIX, 4 X. A word: how many hold the key in each, and whether somebody waits. */
typedef Word { byte holders[5]; bit waited }
Word words[KEYS];

/* The bucket: its mutex, and those that wait in it, first come first. */
bit mutex;
byte queue[THREADS], queued;
bit roused[THREADS];
byte wanted[THREADS], mode[THREADS];

/* What each thread holds, for the claim alone: the mode of each key, or NOTHING. */
typedef Held { byte mode[KEYS] }
Held held[THREADS];

#define IS(k) words[k].holders[0]
#define IX(k) words[k].holders[1]
#define S(k) words[k].holders[2]
#define SIX(k) words[k].holders[3]
#define X(k) words[k].holders[4]

/* Whether the word keeps a mode out. */
#define IS_OUT(k) (X(k) > 0)
#define IX_OUT(k) (S(k) > 0 || SIX(k) > 0 || X(k) > 0)
#define S_OUT(k) (IX(k) > 0 || SIX(k) > 0 || X(k) > 0)
#if FAULT == 1
#define SIX_OUT(k) (S(k) > 0 || SIX(k) > 0 || X(k) > 0)
#else
#define SIX_OUT(k) (IX(k) > 0 || S(k) > 0 || SIX(k) > 0 || X(k) > 0)
#endif
#define X_OUT(k) (IS(k) > 0 || IX(k) > 0 || S(k) > 0 || SIX(k) > 0 || X(k) > 0)
#define IS_KEPT_OUT(k, m) ((m == 0 && IS_OUT(k)) || (m == 1 && IX_OUT(k)) || (m == 2 && S_OUT(k)) || \
    (m == 3 && SIX_OUT(k)) || (m == 4 && X_OUT(k)))

/* Gray's table, for the claim: whether two modes go together. */
#define GO(m, n) ((m == 0 && n != 4) || (m == 1 && n < 2) || (m == 2 && (n == 0 || n == 2)) || (m == 3 && n == 0))

/* No two threads hold a key in modes that don't go together. */
inline claim(k) {
  byte other = 0;
  do
  :: other == THREADS -> break
  :: else ->
    assert(other == me || held[other].mode[k] == NOTHING || GO(held[me].mode[k], held[other].mode[k]));
    other++
  od
}

inline lock() { atomic { mutex == 0 -> mutex = 1 } }
inline unlock() { mutex = 0 }

/* One compare-and-swap takes the key. Its load before, which another thread may overtake, changes nothing: where the
   word has changed meanwhile it is loaded again, so the key is taken exactly where the swap finds that it may be. */
inline try(k, m, is_taken) {
  atomic {
    if
    :: !IS_KEPT_OUT(k, m) -> words[k].holders[m]++; held[me].mode[k] = m; is_taken = 1; claim(k)
    :: else -> is_taken = 0
    fi
  }
}

/* Waits in the bucket, unless the key may be taken by now; then tries again. That somebody waits is marked by one swap,
   which finds that the key is still kept out. */
inline wait(k, m) {
  lock();
  atomic {
    if
    :: IS_KEPT_OUT(k, m) -> words[k].waited = 1; is_kept_out = 1
    :: else -> is_kept_out = 0
    fi
  };
  if
  :: is_kept_out ->
    is_kept_out = 0;
#if FAULT == 2
    unlock(); lock();
#endif
    atomic { wanted[me] = k; mode[me] = m; queue[queued] = me; queued++; mutex = 0 };
    d_step { roused[me] == 1; roused[me] = 0; wanted[me] = 0; mode[me] = 0 };
    lock()
  :: else
  fi;
  unlock()
}

/* Takes a thread out of the queue, and rouses it. */
inline rouse_at(place) {
  d_step {
    roused[queue[place]] = 1;
    next = place;
    do
    :: next + 1 >= queued -> break
    :: else -> queue[next] = queue[next + 1]; next++
    od;
    queued--; queue[queued] = 0; next = 0
  }
}

#define SEEN(m) (seen.holders[m] > 0)
#define SEEN_OUT(m) ((m == 0 && SEEN(4)) || (m == 1 && (SEEN(2) || SEEN(3) || SEEN(4))) || \
    (m == 2 && (SEEN(1) || SEEN(3) || SEEN(4))) || (m == 3 && (SEEN(1) || SEEN(2) || SEEN(3) || SEEN(4))) || \
    (m == 4 && (SEEN(0) || SEEN(1) || SEEN(2) || SEEN(3) || SEEN(4))))

/* Rouses the first threads that wait for the key as long as they fit together, by what the word says at first. */
inline rouse(k) {
  lock();
  d_step {
    count = 0;
    do
    :: count == 5 -> break
    :: else -> seen.holders[count] = words[k].holders[count]; count++
    od;
    count = 0
  };
  do
  :: place == queued -> break
  :: place < queued ->
    if
#if FAULT != 4
    :: wanted[queue[place]] == k && !is_left && !SEEN_OUT(mode[queue[place]]) ->
      seen.holders[mode[queue[place]]]++;
      rouse_at(place)
#endif
    :: else ->
      if :: wanted[queue[place]] == k -> is_left = 1 :: else fi;
      place++
    fi
  od;
  if
#if FAULT == 3
  :: words[k].waited = 0
#else
  :: !is_left -> words[k].waited = 0
  :: else
#endif
  fi;
  d_step {
    count = 0;
    do
    :: count == 5 -> break
    :: else -> seen.holders[count] = 0; count++
    od;
    count = 0; place = 0; is_left = 0; mutex = 0
  }
}

/* Gives a key back: one subtraction, which tells whether somebody waits. */
inline give(k) {
  atomic {
    words[k].holders[held[me].mode[k]]--; held[me].mode[k] = NOTHING; is_waited = words[k].waited
  };
  if
  :: is_waited -> is_waited = 0; rouse(k)
  :: else
  fi
}

/* What a thread no longer needs is 0, so that states which differ in nothing else are one. */
proctype Thread(byte me) {
  byte round, key, m, place, next, count;
  bit is_taken, is_kept_out, is_left, is_waited;
  Word seen;
  do
  :: round == ROUNDS -> break
  :: round < ROUNDS ->
    do
    :: key == KEYS -> break
    :: key < KEYS ->
      if
      :: m = 0 :: m = 1 :: m = 2 :: m = 3 :: m = 4 :: m = NOTHING
      fi;
      do
      :: m == NOTHING -> m = 0; break
      :: m != NOTHING ->
        try(key, m, is_taken);
        if
        :: is_taken -> is_taken = 0; m = NOTHING
        :: else -> wait(key, m)
        fi
      od;
      key++
    od;
    do
    :: key == 0 -> break
    :: key > 0 ->
      key--;
      if
      :: held[me].mode[key] != NOTHING -> give(key)
      :: else
      fi
    od;
    round++
  od
}

init {
  byte thread = 0, key;
  atomic {
    do
    :: thread == THREADS -> break
    :: else ->
      key = 0;
      do :: key == KEYS -> break :: else -> held[thread].mode[key] = NOTHING; key++ od;
      run Thread(thread);
      thread++
    od
  }
}
