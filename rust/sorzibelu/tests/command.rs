//! What the command answers: every sub-command on worked sheets and graphs, as text, as bytes and from standard input.
mod common;
use common::*;
use std::fs;

const COMMANDS: [&str; 14] = ["page", "live", "live-class", "flow", "rewrite", "renumber", "label", "check", "assemble", "list", "mark", "in-use", "conditional", "dying"];

/// The sheets that are stored as text, as bytes and with their page.
const PAGES: [&str; 7] = ["m1", "m2", "m3", "m4", "m5", "m6", "unnamed"];

#[test]
fn text_or_bytes_whatever_the_name() {
    let dir = folder("names");
    let (text, bytes) = (fs::read(stored("m6.txt")).unwrap(), fs::read(stored("m6.sheet")).unwrap());
    let swapped = [file(&dir, "m6.sheet", &text), file(&dir, "m6.txt", &bytes)];
    let with_mark = file(&dir, "mark", [&[0xef, 0xbb, 0xbf], &text[..]].concat());
    for command in ["page", "live", "live-class", "flow", "rewrite", "renumber", "label", "check", "list"] {
        let wanted = run(&[command, &stored("m6.txt")]);
        assert_eq!(wanted.0, 0);
        for other in [&stored("m6.sheet"), &swapped[0], &swapped[1], &with_mark] {
            assert_eq!(run(&[command, other]), wanted);
        }
        assert_eq!(fed(&[command, "-"], &text), wanted);
        assert_eq!(fed(&[command, "-"], &bytes), wanted);
        assert_eq!(run(&[command, "--", &stored("m6.txt")]), wanted);
    }
}

#[test]
fn flow_rewrite_check() {
    answered(&["flow", &stored("m6.txt")], "0 to 0: key 4, leads to 2 3\n1 to 3: key 2, leads to 1\n4 to 5: key 3, leads to 1\nblocks 3\n");
    answered(&["check", &stored("m6.txt")], "accepted\n");
    for m in PAGES {
        let page = fs::read_to_string(stored(&format!("{m}.page"))).unwrap();
        let parts: Vec<&str> = page.split("\n\n").collect();
        answered(&["flow", &stored(&format!("{m}.sheet"))], &(parts[1].strip_prefix("flow\n").unwrap().to_string() + "\n"));
        answered(&["rewrite", &stored(&format!("{m}.sheet"))], parts[3].strip_prefix("rewritten\n").unwrap());
    }
}

#[test]
fn page_and_live() {
    for m in PAGES {
        let page = fs::read_to_string(stored(&format!("{m}.page"))).unwrap();
        answered(&["page", &stored(&format!("{m}.sheet"))], &page);
        answered(&["page", &stored(&format!("{m}.txt"))], &page);
    }
    answered(
        &["live", &stored("m2.txt")],
        "0 0000000000000003 0000000000000003\n1 0000000000000003 0000000000000003\n2 0000000000000002 0000000000000002\n3 0000000000000002 0000000000000000\ntaken 7\n",
    );
    for command in ["page", "live"] {
        refused(&[command, &stored("kind12.sheet")], "refused 4 0\noffset 0: its kind is 12, and the last kind is 11, Prop\n");
        refused(&[command, &stored("stop.sheet")], "refused 18 3\noffset 3: the Stop has the abort action 'abort L1 into t1' and should have none\n");
    }
}

#[test]
fn assemble_and_list() {
    let dir = folder("assemble");
    for m in PAGES {
        let to = dir.join(m).display().to_string();
        let bytes = fs::read(stored(&format!("{m}.sheet"))).unwrap();
        answered(&["assemble", "-o", &to, &stored(&format!("{m}.txt"))], "");
        assert_eq!(fs::read(&to).unwrap(), bytes);
        assert_eq!(command(&["assemble", &stored(&format!("{m}.txt"))]).output().unwrap().stdout, bytes);
        let (status, listed, _) = run(&["list", &to]);
        assert_eq!((status, fed(&["assemble", "-", "-o", &to], listed.as_bytes()).0), (0, 0));
        assert_eq!(fs::read(&to).unwrap(), bytes);
    }
    // a sheet that is refused has a text too
    let to = dir.join("kind12").display().to_string();
    refused(&["assemble", "-o", &to, &stored("kind12.txt")], "refused 4 0\nline 3, offset 0: its kind is 12, and the last kind is 11, Prop\n");
    assert!(!fs::exists(&to).unwrap());
    let (status, out, err) = run(&["assemble", &stored("kind12.txt")]);
    assert_eq!((status, &out[..], &err[..11]), (1, "", "refused 4 0"));
    answered(&["assemble", "--unchecked", &stored("kind12.txt"), "-o", &to], "");
    assert_eq!(fs::read(&to).unwrap(), fs::read(stored("kind12.sheet")).unwrap());
    refused(&["list", &to], "refused 4 0\noffset 0: its kind is 12, and the last kind is 11, Prop\n");
    answered(&["list", "--unchecked", &to], "locals 1 user 1 parameters 1 references\nraw kind 12 sources 1 t0\n");
    // so has one with a Stop that has an abort action, and without raw lines
    let to = dir.join("stop").display().to_string();
    refused(&["assemble", "-o", &to, &stored("stop.txt")], "refused 18 3\nline 6, offset 3: the Stop has the abort action 'abort L1 into t1' and should have none\n");
    answered(&["assemble", "--unchecked", &stored("stop.txt"), "-o", &to], "");
    assert_eq!(fs::read(&to).unwrap(), fs::read(stored("stop.sheet")).unwrap());
    answered(&["list", "--unchecked", &to], fs::read_to_string(stored("stop.txt")).unwrap().split_once('\n').unwrap().1);
}

#[test]
fn rewritten_bytes() {
    let dir = folder("rewritten");
    let to = dir.join("new").display().to_string();
    answered(&["rewrite", "-o", &to, &stored("m5.txt")], "");
    answered(&["list", &to], "locals 3 user 3 parameters 0 references\nt0 <- load Bool\nt2 <- call Not t0\nret t2\n");
    let out = command(&["rewrite", "-o", "-", &stored("m5.txt")]).output().unwrap();
    assert_eq!(out.stdout, fs::read(&to).unwrap());
}

/// Which local is now which: every sort of line, and the code below.
#[test]
fn renumbered_in_words() {
    let dir = folder("renumbered");
    let text = fs::read_to_string(stored("spare.txt")).unwrap();
    let readme = fs::read_to_string(root().join("README.md")).unwrap();
    let (status, out, _) = run(&["renumber", &stored("spare.txt")]);
    assert_eq!(status, 0);
    // README shows the sheet, without its comment, and what is printed
    for part in [text.split_once('\n').unwrap().1, &out] {
        assert!(readme.contains(&format!("```text\n{part}```\n")), "{part}");
    }
    for (given, says) in [
        (
            "locals 3 user 0 parameters 0 references t2\nret t2\n",
            "there are no user locals\nt0 is gone\nt1 is gone\nt2 is now t0\n\nlocals 1 user 0 parameters 0 references t0\n0: ret t0\n",
        ),
        ("locals 2 user 1 parameters 0 references\nret\n", "t0 is a user local and keeps its number\nt1 is gone\n\nlocals 1 user 1 parameters 0 references\n0: ret\n"),
        (
            "locals 6 user 4 parameters 1 references\nret t5 t4\n",
            "t0 to t3 are user locals and keep their numbers\nt4 is now t5\nt5 is now t4\n\nlocals 6 user 4 parameters 1 references\n0: ret t4 t5\n",
        ),
        ("locals 2 user 1 parameters 0 references\nret t1\n", "nothing changes: every local keeps its number\n\nlocals 2 user 1 parameters 0 references\n0: ret t1\n"),
        ("locals 0 user 0 parameters 0 references\nret\n", "nothing changes: there are no locals\n\nlocals 0 user 0 parameters 0 references\n0: ret\n"),
        // gone, and nothing moves
        ("locals 2 user 0 parameters 0 references\nret t0\n", "there are no user locals\nt0 is still t0\nt1 is gone\n\nlocals 1 user 0 parameters 0 references\n0: ret t0\n"),
    ] {
        answered(&["renumber", &file(&dir, "sheet", given)], says);
    }
    // a rewriting leaves t1 behind
    let new = dir.join("new").display().to_string();
    let merged = file(&dir, "merged", "locals 3 user 0 parameters 0 references\nt0 <- load Bool\nt1 <- call Not t0\nt2 <- copy t1\nret t2\n");
    answered(&["rewrite", "-o", &new, &merged], "");
    let code = "locals 2 user 0 parameters 0 references\n0: t0 <- load Bool\n1: t1 <- call Not t0\n2: ret t1\n";
    answered(&["renumber", &new], &format!("there are no user locals\nt0 is still t0\nt1 is gone\nt2 is now t1\n\n{code}"));
}

#[test]
fn renumbered_bytes() {
    let dir = folder("renumbered_bytes");
    let to = dir.join("new").display().to_string();
    answered(&["renumber", "-o", &to, &stored("spare.txt")], "");
    let code = "t2 <- call BorrowLoc t0\nt3 <- call ReadRef t2 abort L1 into t4\nret t3\nlabel L1\nabort t4\n";
    answered(&["list", &to], &format!("locals 5 user 2 parameters 1 references t2\n{code}"));
    let out = command(&["renumber", "-o", "-", &stored("spare.txt")]).output().unwrap();
    assert_eq!(out.stdout, fs::read(&to).unwrap());
    // a local that is hidden: nothing is written, and the line is told
    let hides = file(&dir, "hides", "locals 2 user 1 parameters 0 references t1\n// the parent of t1\nt0 <- call IsParent t1 #5\nnop\ncall WriteBack t1\nret\n");
    let says = "refused 15 0\nline 3, offset 0: the IsParent hides a local in its payload, 5, where renumbering does not reach it\n";
    refused(&["renumber", &hides], says);
    let old = fs::read(&to).unwrap();
    refused(&["renumber", "-o", &to, &hides], says);
    assert_eq!(fs::read(&to).unwrap(), old);
    let bytes = dir.join("hides.sheet").display().to_string();
    answered(&["assemble", "-o", &bytes, &hides], "");
    refused(&["renumber", &bytes], &says.replace("line 3, ", ""));
}

/// Every label of a sheet by its offset, or one: each way, and who names it.
#[test]
fn labels_in_words() {
    let dir = folder("labels");
    let text = fs::read_to_string(stored("unnamed.txt")).unwrap();
    let readme = fs::read_to_string(root().join("README.md")).unwrap();
    let (status, out, _) = run(&["label", &stored("unnamed.txt")]);
    assert_eq!((status, &out[..]), (0, "L1: at offset 0, named by offset 2\nL5: at offset 1, never named\nL2: at offset 3, named by offset 2\n"));
    // README shows the sheet, without its comment, and what is printed
    for part in [text.split_once('\n').unwrap().1, &out] {
        assert!(readme.contains(&format!("```text\n{part}```\n")), "{part}");
    }
    for (word, says) in [
        ("L5", "L5: at offset 1, never named\n"),
        ("5", "L5: at offset 1, never named\n"),
        ("L0", "L0: undefined\n"),
        ("65541", "L65541: undefined\n"),
        ("L4294967295", "L4294967295: undefined\n"),
    ] {
        answered(&["label", &stored("unnamed.txt"), word], says);
        assert_eq!(fed(&["label", "-", word], text.as_bytes()).1, says);
    }
    // named twice by one Branch, by a Jump that no path reaches and by an abort action
    let many = "locals 1 user 0 parameters 0 references\nlabel L7\nbranch L7 L7 on t0\njump L7\ncall Not abort L7 into t0\nlabel L0\nret\n";
    answered(&["label", &file(&dir, "many", many)], "L7: at offset 0, named by offsets 1 2 3\nL0: at offset 4, never named\n");
    answered(&["label", &stored("m1.txt")], "there are no labels\n");
    answered(&["label", &stored("m1.txt"), "L1"], "L1: undefined\n");
    for word in ["x", "L", "", "l1", "-1", "L-1", "+1", "L4294967296", "t0", "LL1"] {
        trouble(&["label", "--", &stored("m2.txt"), word], &format!("'{word}' is no label: L0 to L4294967295, such as L1"));
    }
    trouble(&["label", &stored("m2.txt"), "-1"], "'-1' is no option here");
    trouble(&["label", &stored("m2.txt"), "L1", "L2"], "'L2' is one word too many");
    trouble(&["label", &stored("m7.txt")], "a graph, where a sheet should stand");
}

/// A class set as one file, and as the files of its sheets; a refused sheet is told in its line, and stops no other.
#[test]
fn class_sets_in_words() {
    let dir = folder("classes");
    let table = fs::read_to_string(stored("class.table")).unwrap();
    answered(&["live-class", &stored("class.sheets")], &table);
    assert_eq!(fed(&["live-class", "-"], &fs::read(stored("class.sheets")).unwrap()).1, table);
    // each sheet as its own file, as bytes or as text: the same lines, with their files and the lines of a text
    let names = ["m1.sheet", "m2.txt", "kind12.txt", "m3.sheet", "m6.txt"].map(stored);
    let mut told = table.replace("; offset 0", "; line 3, offset 0");
    for (k, name) in names.iter().enumerate() {
        told = told.replace(&format!("sheet {k}:"), &format!("sheet {k} from {name}:"));
    }
    let words: Vec<&str> = ["live-class"].into_iter().chain(names.iter().map(|n| &n[..])).collect();
    answered(&words, &told);
    // a class set and a sheet, one of them from standard input
    let m1 = fs::read(stored("m1.txt")).unwrap();
    let (status, out, _) = fed(&["live-class", &stored("class.sheets"), "-"], &m1);
    assert_eq!((status, out.lines().count()), (0, 7));
    assert!(out.ends_with("\nsheet 5 from standard input: blocks 10 to 11, accepted, 1 instruction, taken 3\n6 sheets: 5 accepted, 1 refused\n"), "{out}");
    answered(&["live-class", &stored("m1.txt")], "sheet 0: blocks 0 to 1, accepted, 1 instruction, taken 3\n1 sheet: 1 accepted, 0 refused\n");
    // a later block numbered 0 cuts a sheet, a heading numbered otherwise glues its sheet onto the one before it
    let (m1, m2) = (fs::read(stored("m1.sheet")).unwrap(), fs::read(stored("m2.sheet")).unwrap());
    let (mut cut, mut glued) = (m2.clone(), m2.clone());
    cut[512] = 0;
    glued[0] = 7;
    let says = |block: u8| format!("block {block}, refused 1 0, taken 0; the sheet has 512 bytes, and the shortest has 1,024\n");
    answered(&["live-class", &file(&dir, "cut", cut)], &format!("sheet 0: {}sheet 1: {}2 sheets: 0 accepted, 2 refused\n", says(0), says(1)));
    let (m1, glued) = (file(&dir, "m1", m1), file(&dir, "glued", glued));
    let says = "blocks 0 to 3, refused 2 2, taken 0; block 2: its number is 7 and should be 2\n1 sheet: 0 accepted, 1 refused\n";
    answered(&["live-class", &m1, &glued], &format!("sheet 0 from {m1} and {glued}: {says}"));
    // a file without bytes gives nothing
    assert_eq!(run(&["live-class", &m1, "/dev/null", &m1]).1.lines().next_back(), Some("2 sheets: 2 accepted, 0 refused"));
}

/// The whole is refused: the paper's line, and what it means.
#[test]
fn refused_class_sets() {
    let dir = folder("refused_classes");
    let m1 = stored("m1.sheet");
    let sheets = |count: usize| [vec!["live-class"], vec![&m1[..]; count]].concat();
    assert_eq!(run(&sheets(16)).1.lines().next_back(), Some("16 sheets: 16 accepted, 0 refused"));
    refused(&sheets(17), "refused 17 0\n17 sheets, and a class set has 16 at most\n");
    refused(&["live-class", &file(&dir, "zeros", vec![0; 40 * 512])], "refused 17 0\n40 sheets, and a class set has 16 at most\n");
    refused(&["live-class", "/dev/null"], "refused 1 0\nthe class set is empty\n");
    refused(&["live-class", &file(&dir, "short", [0; 1_000])], "refused 1 0\nthe class set has 1000 bytes, which is no multiple of 512\n");
    refused(&["live-class", &file(&dir, "later", [1; 1_024]), &m1], "refused 16 0\nthe number of the first block is 257 and should be 0\n");
    trouble(&["live-class", &m1, &stored("m7.txt")], "m7.txt: a graph, where a sheet should stand");
}

#[test]
fn graphs() {
    answered(&["in-use", &stored("m7.txt"), "0"], "0: yes, 0 -> 1 -> 2, and 2 is live\n");
    answered(&["conditional", &stored("m7.txt")], "0: no\n1: no\n2: no\n");
    answered(&["dying", &stored("m7.txt")], "2 1 0\n");
    answered(&["dying", &stored("m8.txt")], "none\n");
    for m in ["m7", "m8"] {
        answered(&["page", &stored(&format!("{m}.txt"))], &fs::read_to_string(stored(&format!("{m}.page"))).unwrap());
    }
    let dir = folder("graphs");
    let this = file(&dir, "this", "nodes 3\nlive 2\ntriple 0 1 0\ntriple 1 2 0\n");
    let next = file(&dir, "next", "nodes 3\nlive\ntriple 0 1 0\ntriple 1 2 0\n");
    answered(&["dying", &this, &next], "2 1 0\n");
    answered(&["check", &this], "accepted\n");
    answered(&["check", &stored("m7.txt")], "accepted\n");
    trouble(&["dying", &this], "one graph, where a pair should stand");
    refused(&["in-use", &this, "3"], "refused 14 0\nnode 3 was asked about, and the graph has 3 nodes\n");
    trouble(&["in-use", &this, "x"], "'x' is no node");
    trouble(&["in-use", &stored("m1.txt")], "a sheet, where a graph should stand");
    trouble(&["in-use", &stored("m1.sheet")], "bytes, where a text should stand");
    trouble(&["flow", &this], "a graph, where a sheet should stand");
    for (text, says) in [
        ("nodes 65\n", "refused 12 0\nline 1, 65 nodes, and there are 64 at most\n"),
        ("nodes 2\nlive 2\n", "refused 12 0\nline 2, node 2 is live, and there are 2 nodes\n"),
        ("nodes 2\nlive\ntriple 2 0 0\n", "refused 13 0\nline 3, triple 0 (2,0,0): its parent 2 is not below the node count, 2\n"),
        ("nodes 2\nlive\ntriple 0 2 0\n", "refused 13 0\nline 3, triple 0 (0,2,0): its child 2 is not below the node count, 2\n"),
        ("nodes 2\nlive\ntriple 0 1 1\ntriple 0 1 1\n", "refused 13 1\nline 4, triple 1 (0,1,1): it is not above the triple before it (0,1,1)\n"),
        ("nodes 2\nlive\ntriple 0 1 1\nrest 1\n", "refused 13 300\nline 4, the list of triples has 4 numbers, which is no multiple of three\n"),
    ] {
        let graph = file(&dir, "graph", text);
        for command in ["in-use", "conditional", "page", "check"] {
            refused(&[command, &graph], says);
        }
        let second = says.replace("12 0", "12 1").replace("13 0", "13 1000").replace("13 1\n", "13 1001\n").replace("13 300", "13 1300").replacen(", ", ", the next graph: ", 1);
        refused(&["dying", &this, &graph], &second);
    }
}

/// Sheets that break each check, and the words for it.
#[test]
fn refusals_in_words() {
    let dir = folder("refusals");
    let head = "locals 2 user 2 parameters 0 references t1\n";
    for (text, says) in [
        ("locals 65 user 0 parameters 0 references\nret\n", "3 0\nline 1, the heading: 65 locals, and there are 64 at most\n"),
        ("locals 2 user 3 parameters 0 references\nret\n", "3 0\nline 1, the heading: 3 user locals of 2 locals\n"),
        ("locals 2 user 1 parameters 2 references\nret\n", "3 0\nline 1, the heading: 2 parameters of 1 user locals\n"),
        ("locals 2 user 1 parameters 0 references t2\nret\n", "3 0\nline 1, the heading: the reference mask has t2, and there are 2 locals\n"),
        ("locals 0 user 0 parameters 0 references count 0\nret\n", "3 0\nline 1, the heading: the instruction count is 0 and should be 1 to 1,024\n"),
        ("locals 0 user 0 parameters 0 references count 16\nret\n", "3 0\nline 1, the heading: 16 instructions take 3 blocks, and the sheet has 2\n"),
        ("locals 0 user 0 parameters 0 references bytes 1000\nret\n", "1 0\nthe sheet has 1000 bytes, which is no multiple of 512\n"),
        ("locals 0 user 0 parameters 0 references bytes 512\n", "1 0\nthe sheet has 512 bytes, and the shortest has 1,024\n"),
        ("locals 0 user 0 parameters 0 references bytes 36352\nret\n", "1 0\nthe sheet has 36352 bytes, and the longest has 35,840\n"),
        ("locals 0 user 0 parameters 0 references\nblock 1 number 3\nret\n", "2 1\nline 2, block 1: its number is 3 and should be 1\n"),
        ("locals 0 user 0 parameters 0 references\nblock 1 check 9\nret\n", "2 1\nline 2, block 1: its check is 9 and should be 3, the sum of its other bytes\n"),
        (&format!("{head}nop\nraw kind 12\nret\n"), "4 1\nline 3, offset 1: its kind is 12, and the last kind is 11, Prop\n"),
        (&format!("{head}raw kind 1 sub 55\nret\n"), "4 0\nline 2, offset 0: its sub is 55 and should be 0 to 54 in a Call\n"),
        (&format!("{head}raw kind 2 sub 1\nret\n"), "4 0\nline 2, offset 0: its sub is 1 and should be 0 in a Ret\n"),
        (&format!("{head}raw kind 0 sources 1 t0\nret\n"), "4 0\nline 2, offset 0: its count of destinations is 0 and should be 1 in an Assign\n"),
        (&format!("{head}raw kind 2 sources 9\nret\n"), "4 0\nline 2, offset 0: its count of sources is 9 and should be 0 to 8 in a Ret\n"),
        (&format!("{head}raw kind 8 one L3\nret\n"), "4 0\nline 2, offset 0: its label one is 3 and should be 0 in a Nop\n"),
        (&format!("{head}raw kind 5 one L3 two L4\nret\n"), "4 0\nline 2, offset 0: its label two is 4 and should be 0 in a Jump\n"),
        (&format!("{head}raw kind 1 sub 28 flag 2\nret\n"), "4 0\nline 2, offset 0: its abort flag is 2 and should be 0 or 1 in a Call\n"),
        (&format!("{head}raw kind 8 flag 1\nret\n"), "4 0\nline 2, offset 0: its abort flag is 1 and should be 0 in a Nop\n"),
        (&format!("{head}raw kind 1 sub 28 one L3\nret\n"), "4 0\nline 2, offset 0: its label one, without an abort flag, is 3 and should be 0 in a Call\n"),
        (&format!("{head}raw kind 8 into t1\nret\n"), "4 0\nline 2, offset 0: its abort local is 1 and should be 0 in a Nop\n"),
        (&format!("{head}label L1\ncall Stop abort L1 into t0\n"), "18 1\nline 3, offset 1: the Stop has the abort action 'abort L1 into t0' and should have none\n"),
        (&format!("{head}call Stop\nret t2\n\ncall Stop abort L7 into t9\nnop\n"), "18 2\nline 5, offset 2: the Stop has the abort action 'abort L7 into t9' and should have none\n"),
        (&format!("{head}ret t2\n"), "5 0\nline 2, offset 0: the Ret's source is t2, and there are 2 locals\n"),
        (&format!("{head}nop\nt9 <- load Bool\nret\n"), "5 1\nline 3, offset 1: the Load's destination is t9, and there are 2 locals\n"),
        (&format!("{head}call Not abort L1 into t2\nlabel L1\nret\n"), "5 0\nline 2, offset 0: the Call's abort local is t2, and there are 2 locals\n"),
        (&format!("{head}label L7\nnop\nlabel L7\nret\n"), "6 2\nline 4, offset 2: the Label repeats number 7, which the Label at offset 0 has\n"),
        (&format!("{head}label L1\nbranch L1 L2 on t0\n"), "7 1\nline 3, offset 1: the Branch names label 2, which no Label has\n"),
        (&format!("{head}jump L1\n"), "7 0\nline 2, offset 0: the Jump names label 1, which no Label has\n"),
        (&format!("{head}call Not abort L1 into t0\nret\n"), "7 0\nline 2, offset 0: the Call's abort action names label 1, which no Label has\n"),
        (&format!("{head}ret\nnop\n"), "8 1\nline 3, offset 1: a Nop is the last instruction and can fall past the end\n"),
        (&format!("{head}label L1\ncall Not abort L1 into t0\n"), "8 1\nline 3, offset 1: a Call is the last instruction and can fall past the end\n"),
    ] {
        let sheet = file(&dir, "sheet", text);
        for command in ["check", "flow", "rewrite", "renumber", "label", "list"] {
            refused(&[command, &sheet], &format!("refused {says}"));
        }
        refused(&["label", &sheet, "L7"], &format!("refused {says}"));
    }
    let mut bytes = fs::read(stored("m1.sheet")).unwrap();
    bytes[512 + 20] = 1;
    bytes[514] += 1;
    refused(&["check", &file(&dir, "20", &bytes)], "refused 2 1\nblock 1: its byte 20 is 1 and should be 0\n");
    let (label, attr) = ("label L1\nbranch L1 L65535 on t0\nlabel L65535\nret\n", "label L1\nbranch L1 L2 on t0\nlabel L2\nret @65533\n");
    for (code, from) in [(label, "65536 on and new attribute ids from 1"), (attr, "3 on and new attribute ids from 65534")] {
        let ten = file(&dir, "ten", format!("locals 1 user 0 parameters 0 references t0\n{code}"));
        let says = format!("refused 10 0\nthe rewriting needs new labels from {from} on, and one of them would be above 65,535\n");
        refused(&["rewrite", &ten], &says);
    }
}

/// `--help` of each command has examples, and they are what the command prints.
#[test]
fn help_has_examples_that_run() {
    let dir = folder("help");
    let all = run(&["--help"]);
    assert_eq!(all.0, 0);
    std::os::unix::fs::symlink(root().join("sheets").canonicalize().unwrap(), dir.join("sheets")).unwrap();
    for name in COMMANDS {
        assert!(all.1.contains(&format!("\n  {name} ")), "{name}");
        let help = run(&[name, "--help"]);
        assert_eq!((help.0, &help), (0, &run(&["help", name])));
        assert_eq!(help, run(&[name, "-h", "nothing"]));
        let mut examples = help.1.split("\n$ sorzibelu ").skip(1).peekable();
        assert!(examples.peek().is_some(), "{name}");
        for example in examples {
            let (words, says) = example.split_once('\n').unwrap_or((example, ""));
            let out = command(&words.split(' ').collect::<Vec<_>>()).current_dir(&dir).output().unwrap();
            let out = String::from_utf8(out.stdout).unwrap();
            assert!(format!("{says}\n").starts_with(&out), "{name}: {words}\n{out}");
        }
    }
    assert_eq!(run(&["help"]), all);
    assert_eq!(run(&["-h"]), all);
    assert!(run(&["--version"]).1.starts_with("sorzibelu 0"));
}

/// A folder of answers gives the same marks whatever the number of threads.
#[test]
fn marks() {
    let dir = folder("marks");
    let right = file(&dir, "right", "0 3 3\n1 t0,t1 t0,t1\n2 2 2\n3 t1 -\ntaken 7\n");
    let m2 = stored("m2.txt");
    answered(&["mark", &m2, &right], "5 of 5 right\n");
    answered(&["mark", &stored("m2.sheet"), &right], "5 of 5 right\n");
    (0..40).for_each(|i| drop(file(&dir, &format!("{i:02}"), format!("0 3 3\n1 3 {}\ntaken 7\n", i % 4))));
    let here = dir.display().to_string();
    let (status, out, err) = run(&["mark", &m2, &here]);
    assert!(status == 1 && out.ends_with("41 answers: 1 all right, 40 not, 0 not marked\n") && err.is_empty(), "{status} {out} {err}");
    let csv = run(&["mark", "--csv", &m2, &here]);
    assert_eq!((csv.0, csv.1.lines().count()), (1, 42));
    for threads in ["1", "2", "7"] {
        assert_eq!(run(&["mark", "--threads", threads, &m2, &here]).1, out);
        assert_eq!(run(&["mark", "--threads", threads, "--csv", &m2, &here]), csv);
    }
    answered(&["mark", "--kind", "dying", &stored("m7.txt"), &file(&dir, "dying", "2 1 0\n")], "3 of 3 right\n");
    // an answer that cannot be read costs that answer
    let missing = dir.join("missing").display().to_string();
    let (status, out, err) = run(&["mark", &m2, &right, &missing]);
    assert!(status == 2 && out.contains("5 of 5 right") && err == format!("{missing}: No such file or directory (os error 2)\n"), "{status} {out} {err}");
    trouble(&["mark", &m2], "too few words");
    trouble(&["mark", &missing, &right], "missing: No such file");
    trouble(&["mark", "--kind", "x", &m2, &right], "'x' is no kind");
    trouble(&["mark", "--threads", "x", &m2, &right], "'x' is no number of threads");
}
