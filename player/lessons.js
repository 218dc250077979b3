"use strict";
// The questions of the lessons and their answers, as they stand in docs/TEACHING.md and docs/ANSWERS.md.
// `node player/test/make_lessons.js` writes this file, and the tests compare it with those.
(function (Player) {
  Player.LESSONS = [
   {
    "number": 1,
    "title": "First touch and demand zero",
    "items": [
     {
      "question": [
       "The trace has seven requests. Which of them are page faults, and why are the others none?"
      ],
      "answer": [
       "Three are served, each a first touch: lines 1, 3 and 7. The reads of lines 5 and 6 go to pages that are valid by then. The read of line 9 is to a page that is mapped and isn't valid, so it is a page fault too, but one that the pager refuses, for it can't make the page valid; where faults are counted, those that are served count. That of line 10 goes to no page that is mapped, so there is nothing that could be made valid: it is refused, and is no page fault."
      ]
     },
     {
      "question": [
       "Page 00000000 is only read. Why does its frame have MODIFY 1?"
      ],
      "answer": [
       "The only copy of the page is in memory: its zeros are in no block. If the frame were reused without a write, the page would be lost. So a page of zeros counts as modified from its first touch."
      ]
     },
     {
      "question": [
       "Four pages are mapped, and five frames are free. Why is the read at 00000600 refused?"
      ],
      "answer": [
       "Each private page that is touched is charged one block of the page file, so that it can be written whenever its frame is needed. Three blocks are charged (`CHARGED 3`), and there are three. Frames don't matter. That the charge is made at the first touch is this project's own rule."
      ]
     },
     {
      "question": [
       "Line 6 reads one byte of the longword that line 4 wrote. Which, and what does that say of the order of bytes?"
      ],
      "answer": [
       "Byte 0 of the longword 12345678 is 78: the least significant byte has the lowest address."
      ]
     }
    ]
   },
   {
    "number": 2,
    "title": "First in, first out, and Belady's anomaly",
    "items": [
     {
      "question": [
       "Do it on paper: which pages are in the ring after each reference, with three slots and with four? Compare with the lines `EVICT`."
      ],
      "answer": [
       "With three slots: 1, 2 and 3 come in; then 4 for 1, 1 for 2, 2 for 3, 5 for 4; 1 and 2 are hits; 3 for 1, 4 for 2; 5 is a hit. The pages that leave are those of the six `EVICT` lines with limit 3: 1, 2, 3, 4, 1, 2. With four slots: 1, 2, 3 and 4 come in; 1 and 2 are hits; then 5 for 1, 1 for 2, 2 for 3, 3 for 4, 4 for 5, 5 for 1. The six `EVICT` lines with limit 4 have 1, 2, 3, 4, 5, 1. The fifth page pushes out 1, which is needed next, and from there on each page leaves just before it is needed."
      ]
     },
     {
      "question": [
       "Four pages have more faults than three. Can that happen to LRU? Why?"
      ],
      "answer": [
       "No. With LRU the pages in four frames are always those in three frames and one more: the most recently used ones. So a hit with three is a hit with four. The ring has no such order: which page came first depends on when faults were."
      ]
     },
     {
      "question": [
       "With three frames no schedule has fewer than 7 faults. Which page does the best schedule let go at its first choice, and why can no run of a real system do so?"
      ],
      "answer": [
       "At the reference to 4 it lets 3 go, whose next reference is the furthest of the three (Belady's rule). A real system doesn't know what will be referenced; it can only guess from the past."
      ]
     },
     {
      "question": [
       "The summary has faults and no reads. What kind of fault are the four, or five, that aren't first touches?"
      ],
      "answer": [
       "Soft faults: `BACK` from the modified list. The page had left the working set and was still in its frame. See lesson 4."
      ]
     }
    ]
   },
   {
    "number": 3,
    "title": "LRU and the least, as curves",
    "items": [
     {
      "question": [
       "All curves end at 16. Why not lower?"
      ],
      "answer": [
       "There are 16 distinct pages, and each must fault once."
      ]
     },
     {
      "question": [
       "From four frames on, where does one frame more gain the ring most? What does that say of the program?"
      ],
      "answer": [
       "From nine to ten frames, from 287 faults to 47: the program goes round ten pages or so for most of the time. A ring that is one page too small loses each page just before it is needed."
      ]
     },
     {
      "question": [
       "At three frames the ring beats LRU. Is that a mistake?"
      ],
      "answer": [
       "No. LRU isn't better than first in, first out on every string; only the least is at most both, always."
      ]
     },
     {
      "question": [
       "How far is LRU from the least at eight frames, and at ten? Would a better rule help this program more than two more frames?"
      ],
      "answer": [
       "At eight frames LRU has 174 and the least 126, so the best rule of all would spare 48 faults. Two more frames spare 137 with LRU as it is. With ten frames it is 37 and 22."
      ]
     }
    ]
   },
   {
    "number": 4,
    "title": "The modified list as a second chance",
    "items": [
     {
      "question": [
       "Why do six frames do as well as twelve?"
      ],
      "answer": [
       "The six pages are all there are. With six frames each has one, valid or on a list, and none has to be given up."
      ]
     },
     {
      "question": [
       "With six frames or more nothing is read or written, though every reference is a fault. What would this program cost if a page that leaves were written and read back each time?"
      ],
      "answer": [
       "18 reads, one for each reference after the first touches; and six writes, one for each page that was changed, or up to 22, one for each page that leaves, if it isn't known which are changed."
      ]
     },
     {
      "question": [
       "In the second table faults move from the modified to the free list. Why, and why does nothing get slower?"
      ],
      "answer": [
       "A page that was written to its block is clean: when it leaves again, it goes to the free list. There are twelve frames and six pages, so no frame of the free list is reused, and a fault takes the page back from there as well."
      ]
     },
     {
      "question": [
       "With four frames pages are *read along*. What is that, and do they help?"
      ],
      "answer": [
       "A cluster: the block that follows belongs to the next page, so it is read in the same go, and its frame waits at the tail of the free list. Eight pages were read along, and eight faults then found their page on the free list: each saved a read of its own."
      ]
     },
     {
      "question": [
       "A page was written to once, in the first round. Why is it on the modified list again in each round, until it was written to its block?"
      ],
      "answer": [
       "Only the start of a write (`OUT`) clears the modify mark. A page that is taken back from the modified list keeps it, so it goes there again."
      ]
     }
    ]
   },
   {
    "number": 5,
    "title": "Working sets and thrashing",
    "items": [
     {
      "question": [
       "Two processes read nothing, three read 3,565 pages. Where is the edge, and why is it so sharp?"
      ],
      "answer": [
       "Three processes want eighteen pages. With seventeen frames the system must swap, with eighteen never. Each process needs all six pages again and again, so as soon as one frame is missing, a whole process has to go, and it is the one whose turn comes next."
      ]
     },
     {
      "question": [
       "The hit rate is 99 % in each row. Why is it no measure here?"
      ],
      "answer": [
       "Faults are counted there, and a process that is swapped in finds its pages valid: they came by `COME`. The work is in the swaps: 33 lines for each reference in place of one."
      ]
     },
     {
      "question": [
       "With three processes and sixteen frames each swap writes six pages and reads two. Why two?"
      ],
      "answer": [
       "A process that comes back takes what is still on the free list, without a read. Sixteen frames less the twelve of two processes leave four; so four of six pages are still there, and two have been given up. The table shows it: one page missing for each frame fewer."
      ]
     },
     {
      "question": [
       "What could a system do with the third process in place of this? Try `PROCESS` lines with a limit of five: `examples/cycling_trace.py` takes `--limit 5`."
      ],
      "answer": [
       "Smaller working sets keep each process in memory, at a fault for each reference, since a ring of five is one page too small for six. Eighteen pages don't fit into sixteen frames either way, so nearly each fault reads a page and has one written. That is still half of the reads and a sixth of the writes. What helps is to let the third process wait: two alone cost nothing.",
       {
        "code": "$ examples/cycling_trace.py --procs 3 --pages 6 --frames 16 --refs 600 --limit 5 > five.trace\n$ ./neqysbar serial < five.trace | examples/summary.py | tail -n 2\nreads 1782 (faults 1782, neighbours 0, swapped in 0), writes 1784, failed 0\nentries 12519, status 0"
       }
      ]
     }
    ]
   },
   {
    "number": 6,
    "title": "Page fault frequency",
    "items": [
     {
      "question": [
       "An adjustment comes after each sixteen references. Between which lines do the phases change, and how long does the limit take to follow?"
      ],
      "answer": [
       "Nine adjustments are a phase. The second phase begins behind line 192: with 15 faults in sixteen references the limit rises to 6 and then to 9, within 32 references. The third begins behind line 440, and the limit needs five adjustments to fall to 3: it rises by three pages and falls by two."
      ]
     },
     {
      "question": [
       "Limits of 4 and of 6 have nearly the same faults. Why?"
      ],
      "answer": [
       "A ring that goes round eight pages with fewer than eight slots has a fault at each reference. So it doesn't matter how far below eight the limit is."
      ]
     },
     {
      "question": [
       "The adjusted limit reached 10, though the quota is 8. Which parameter allows that, and when wouldn't it?"
      ],
      "answer": [
       "BORROWLIM: while more than four frames are free, a limit may rise above the quota, to the extent, here 10. On a full machine it would stop at 8."
      ]
     },
     {
      "question": [
       "In the second phase the limit goes up and down. Why, and which parameters would calm it?"
      ],
      "answer": [
       "With nine or ten pages there are few faults, so the limit falls; with seven there are many again, so it rises. The number of faults jumps between two sizes, and no threshold lies between. PFRATL 0 never lets it fall; a smaller WSDEC falls more slowly; a longer AWSTIME waits. Each also keeps memory longer in the third phase."
      ]
     },
     {
      "question": [
       "The average pages are more than the average limit. How can a working set have more pages than its limit?"
      ],
      "answer": [
       "A lower limit takes no page away by itself: pages leave at the next fault. Where there is none, they stay. The adjusted limit has 86 faults with the same average of pages with which a fixed limit of 6 has 163."
      ]
     }
    ]
   },
   {
    "number": 7,
    "title": "Sharing, and copy on reference",
    "items": [
     {
      "question": [
       "Three faults read the disk, one doesn't. Which, and why?"
      ],
      "answer": [
       "Line 7: B's fault on LIB. The page is valid for A, so its frame is there; B's entry is made valid for the same frame (`BACK .. ACTIVE`)."
      ]
     },
     {
      "question": [
       "Whose byte does A see in LIB, and whose in IMG?"
      ],
      "answer": [
       "In LIB B's 33: it is one page. In IMG its own 22: B's write went to a copy of its own."
      ]
     },
     {
      "question": [
       "Frame 1 has MODIFY 1 though A only read that page. Why, and where would it be written?"
      ],
      "answer": [
       "A page that is copied at its first reference belongs to its process from then on, and isn't the section's any more: its bytes are in no block of its own. It counts as modified, and would be written to the page file."
      ]
     },
     {
      "question": [
       "Why are two blocks of the page file charged, and not four?"
      ],
      "answer": [
       "Private pages are charged, so the two copies of IMG. A page of a shared section has a home of its own, the section's block."
      ]
     },
     {
      "question": [
       "Why does the rundown write LIB/0 and no page of IMG?"
      ],
      "answer": [
       "Only a shared section keeps what processes write. Copies of IMG are private and end with the run; the section's block stays as it was."
      ]
     }
    ]
   },
   {
    "number": 8,
    "title": "Swapping, line by line",
    "items": [
     {
      "question": [
       "Line 17: why does a process leave at all? And why A and not B?"
      ],
      "answer": [
       "C needs a frame: the free list is empty, and so is the modified list, for all eight frames are active. So a process has to go. It is, of all but C, the resident one whose last answer is the longest ago: A's is line 8, B's line 16. That choice is this project's own."
      ]
     },
     {
      "question": [
       "Why is C the seat of lines 17 to 30, and not the swapper?"
      ],
      "answer": [
       "A process that lacks a frame does the writer's or the swapper's work itself, with its own seat. That is this project's own rule too. The seat `SWP` works only after an answer, if FREELIM asks for it; here FREELIM is 0."
      ]
     },
     {
      "question": [
       "Lines 18 to 29: why are the pages written first and evicted after that? When would no write be needed?"
      ],
      "answer": [
       "All four were changed and have no copy on disk. While one is written its entry stays valid; then it is clean, and its frame may go to the free list. A page that lies in its swap block and wasn't changed is evicted at once."
      ]
     },
     {
      "question": [
       "Lines 35 to 37: three pages come back without a read, and one with one. Why?"
      ],
      "answer": [
       "When A left, its four frames went to the free list, and C took the first (line 31). The other three still had A's pages. Page 00000000 has to be read from its swap block."
      ]
     },
     {
      "question": [
       "Line 38: one page is missing, and all of B leaves for it. What would a kinder rule do, and what does this one spare itself?"
      ],
      "answer": [
       "It would take one page of B's. Processes leave and come back as a whole here: then no process that is in memory lacks a page of the set that it left with, and no process has to be judged page by page."
      ]
     },
     {
      "question": [
       "In the report A's pages have MODIFY 1. They were written at lines 18 to 25, and nobody changed them. Why?"
      ],
      "answer": [
       "When a page comes back its swap block is given up: the page lies nowhere but in memory. So it has to be written before its frame is reused, and counts as modified. This is this project's own rule."
      ]
     },
     {
      "question": [
       "Eight pages were written. Why is ASSIGNED 0, and CHARGED 9?"
      ],
      "answer": [
       "ASSIGNED counts blocks of the page file that pages were written to. These pages were written to swap blocks, one for each slot of a working set. CHARGED counts private pages that were touched: four of A, four of B, one of C."
      ]
     },
     {
      "question": [
       "Give the swapper work of its own, so that a process finds free frames when it needs them:",
       {
        "code": "$ sed 's/^PAGEFILE.*/&\\nPARAM FREELIM 2\\nPARAM FREEGOAL 4/' examples/swapping.trace | ./neqysbar serial | grep SWP | head -4\n15 SWP TURN C LEAVING\n16 SWP TURN C GONE\n17 SWP TURN A LEAVING\n18 SWP OUT F0 X:A/0"
       },
       "Why does C leave first, and what does that cost?"
      ],
      "answer": [
       "C hasn't been answered yet, so it is taken to have spoken before all others. It has no page in memory, so it leaves at no cost, but frees nothing: A has to leave too."
      ]
     }
    ]
   }
  ];
})(globalThis.Player = globalThis.Player || {});
