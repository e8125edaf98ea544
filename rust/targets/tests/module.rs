//! Retargeting changes what it should, and stops on what it does not know; and the
//! comparison of signatures tells a function that is not as the header has it.

use targets::header::Header;
use targets::module::retarget;
use targets::signature::{declared, defined, differences};
use targets::target::{Target, ALL};

/// A module as the kit writes it, small.
const MODULE: &str = r#"; ModuleID = 'module.bc'
source_filename = "rattle"
target datalayout = "e-m:e-p270:32:32-p271:32:32-p272:64:64-i64:64-i128:128-f80:128-n8:16:32:64-S128"
target triple = "x86_64-unknown-linux-gnu"

; Function Attrs: nounwind
define internal noundef i8 @"abi::crew_group"(i8 noundef %a0) #0 {
start:
  %r0 = alloca [16 x i8], align 8
  call void @llvm.memset.p0.i64(ptr %r0, i8 0, i64 16, i1 false)
  switch i8 %a0, label %other [
    i8 1, label %form
  ]

form:                                             ; preds = %start
  %r1 = load i8, ptr %r0, align 1, !range !2
  ret i8 %r1

other:                                            ; preds = %start
  %r2 = icmp ult i8 %a0, 9
  br i1 %r2, label %form, label %never

never:                                            ; preds = %other
  call void @llvm.trap()
  unreachable
}

; Function Attrs: nounwind
define noundef ptr @crew_load(ptr noundef %a0, ptr noundef byval([4688 x i8]) align 8 %a1, i8 noundef %a2, ptr noundef %a3, i64 noundef %a4) #0 {
start:
  %r0 = alloca [16 x i8], align 8
  store ptr %a3, ptr %r0, align 8
  call void @llvm.memmove.p0.p0.i64(ptr %a0, ptr %a1, i64 4688, i1 false)
  ret ptr %a0
}

; Function Attrs: nounwind
define { i64, i64 } @crew_store(ptr noundef %a0, i64 noundef %a1) #0 {
start:
  %r0 = alloca [16 x i8], align 8
  %r1 = load { i64, i64 }, ptr %r0, align 8
  ret { i64, i64 } %r1
}

; Function Attrs: nounwind
define noundef i8 @crew_group(i8 noundef %a0) #0 {
start:
  %r0 = call i8 @"abi::crew_group"(i8 %a0)
  ret i8 %r0
}

declare void @llvm.memmove.p0.p0.i64(ptr writeonly captures(none), ptr readonly captures(none), i64, i1 immarg) #1

declare void @llvm.memset.p0.i64(ptr writeonly captures(none), i8, i64, i1 immarg) #2

declare void @llvm.trap() #3

attributes #0 = { nounwind "probe-stack"="inline-asm" "stack-probe-size"="3072" "target-cpu"="x86-64" }
attributes #1 = { nocallback nofree nounwind willreturn memory(argmem: readwrite) }
attributes #2 = { nocallback nofree nounwind willreturn memory(argmem: write) }
attributes #3 = { cold noreturn nounwind memory(inaccessiblemem: write) }

!llvm.ident = !{!0}

!0 = !{!"rattle logic=0"}
!1 = !{}
!2 = !{i8 0, i8 2}
"#;

/// The calls of that module.
const HEADER: &str = "
#include <stdint.h>
#define SIZE 4680
struct crew_desk { size_t length; uint8_t bytes[SIZE]; };
struct crew_outcome { uint8_t refusal; size_t length; };
uint8_t crew_group(uint8_t number);
struct crew_outcome crew_store(const uint8_t *file, size_t file_len);
struct crew_desk crew_load(struct crew_desk desk, uint8_t quota, uint8_t *out, size_t out_len);
static inline int crew_twice(int x) { if (x) { return 2; } return 1; }
";

/// What the kit's compiler makes of them.
fn naming(target: Target) -> &'static str {
    match target {
        Target::X86 => "
declare zeroext i8 @crew_group(i8 noundef zeroext) #0
declare { i8, i64 } @crew_store(ptr noundef, i64 noundef) #0
declare void @crew_load(ptr dead_on_unwind writable sret(%struct.crew_desk) align 8, ptr noundef byval(%struct.crew_desk) align 8, i8 noundef zeroext, ptr noundef, i64 noundef) #0
",
        Target::Arm | Target::Android => "
declare i8 @crew_group(i8 noundef) #0
declare [2 x i64] @crew_store(ptr noundef, i64 noundef) #0
declare void @crew_load(ptr dead_on_unwind writable sret(%struct.crew_desk) align 8, ptr dead_on_return noundef, i8 noundef, ptr noundef, i64 noundef) #0
",
        Target::Web => "
declare zeroext i8 @crew_group(i8 noundef zeroext) #0
declare void @crew_store(ptr dead_on_unwind writable sret(%struct.crew_outcome) align 8, ptr noundef, i64 noundef) #0
declare void @crew_load(ptr dead_on_unwind writable sret(%struct.crew_desk) align 8, ptr noundef byval(%struct.crew_desk) align 8, i8 noundef zeroext, ptr noundef, i64 noundef) #0
",
    }
}

fn differ(module: &str, target: Target) -> Vec<String> {
    let header = Header::read(HEADER).expect("a header");
    let own = defined(module, target, &header).expect("signatures");
    let expected = declared(naming(target), target, &header).expect("signatures");
    assert_eq!(expected.len(), header.calls.len());
    differences(&own, &expected)
}

#[test]
fn every_target_has_the_signatures_of_its_compiler() {
    for target in ALL {
        let module = retarget(MODULE, target).expect("all of it is known");
        assert_eq!(differ(&module, target), [""; 0], "{target}");
        let stated = format!("target triple = \"{}\"\n", target.triple());
        assert!(module.contains(&stated), "{target}");
        assert_eq!(module.contains("x86"), target == Target::X86, "{target}");
    }
    assert_eq!(retarget(MODULE, Target::X86).as_deref(), Ok(MODULE));
}

#[test]
fn a_module_that_is_not_retargeted_differs() {
    for target in [Target::Arm, Target::Android, Target::Web] {
        assert!(!differ(MODULE, target).is_empty(), "{target}");
    }
}

#[test]
fn a_signature_that_is_not_the_headers_differs() {
    let falsified = [
        ("i8 noundef %a2, ptr", "i64 noundef %a2, ptr"),
        ("byval([4688 x i8])", "byval([4687 x i8])"),
        ("{ i64, i64 } @crew_store", "noundef i8 @crew_store"),
        (
            "@crew_group(i8 noundef %a0)",
            "@crew_group(i8 noundef %a0, i8 noundef %a1)",
        ),
        ("@crew_store(", "@crew_stored("),
    ];
    for (old, new) in falsified {
        let module = MODULE.replace(old, new);
        assert_ne!(module, MODULE, "{old}");
        assert!(!differ(&module, Target::X86).is_empty(), "{new}");
    }
}

#[test]
fn only_what_is_meant_changes() {
    let arm = retarget(MODULE, Target::Arm).expect("all of it is known");
    let lines = MODULE.lines().zip(arm.lines());
    let changed: Vec<&str> = lines
        .filter(|(old, new)| old != new)
        .map(|(_, new)| new)
        .collect();
    assert_eq!(
        changed,
        [
            "target datalayout = \"e-m:e-p270:32:32-p271:32:32-p272:64:64-i8:8:32-i16:16:32-i64:64-i128:128-n32:64-S128-Fn32\"",
            "target triple = \"aarch64-unknown-linux-gnu\"",
            "define void @crew_load(ptr noundef sret(i8) align 8 %a0, ptr noundef %a1, i8 noundef %a2, ptr noundef %a3, i64 noundef %a4) #0 {",
            "  ret void",
            "attributes #0 = { nounwind \"probe-stack\"=\"inline-asm\" \"stack-probe-size\"=\"3072\" }",
        ]
    );
    let web = retarget(MODULE, Target::Web).expect("all of it is known");
    assert!(web.contains("define void @crew_store(ptr noundef sret(i8) align 8 %place, ptr noundef %a0, i64 noundef %a1) #0 {\n"));
    assert!(web.contains("  store { i64, i64 } %r1, ptr %place, align 8\n  ret void\n"));
    assert!(web.contains("define noundef zeroext i8 @crew_group(i8 noundef zeroext %a0) #0 {\n"));
}

/// What is not known, each in the place of something that is.
#[rustfmt::skip]
const NOT_KNOWN: &[(&str, &str)] = &[
    ("%r2 = icmp ult i8 %a0, 9", "%r2 = ptrtoint ptr %r0 to i64"),
    ("%r2 = icmp ult i8 %a0, 9", "%r2 = inttoptr i64 9 to ptr"),
    ("%r2 = icmp ult i8 %a0, 9", "%r2 = add <2 x i8> %a0, %a0"),
    ("%r2 = icmp ult i8 %a0, 9", "%r2 = add i128 %a0, 9"),
    ("%r2 = icmp ult i8 %a0, 9", "%r2 = fadd double %a0, 9"),
    ("%r2 = icmp ult i8 %a0, 9", "%r2 = load atomic i8, ptr %r0 seq_cst, align 1"),
    ("%r2 = icmp ult i8 %a0, 9", "%r2 = load volatile i8, ptr %r0, align 1"),
    ("%r2 = icmp ult i8 %a0, 9", "%r2 = call i8 asm \"nop\", \"=r\"()"),
    ("%r2 = icmp ult i8 %a0, 9", "%r2 = call i8 @llvm.ctpop.i8(i8 %a0)"),
    ("%r2 = icmp ult i8 %a0, 9", "%r2 = call i8 @puts(i8 %a0)"),
    ("%r2 = icmp ult i8 %a0, 9", "%r2 = load i8, ptr @table, align 1"),
    ("%r2 = icmp ult i8 %a0, 9", "%r2 = load i8, ptr addrspace(1) %r0, align 1"),
    ("%r2 = icmp ult i8 %a0, 9", "%r2 = load i8, ptr %r0, align 1, !nontemporal !1"),
    ("%r2 = icmp ult i8 %a0, 9", "fence seq_cst"),
    ("    i8 1, label %form", "    i128 1, label %form"),
    ("form:  ", "\"a form\":  "),
    ("noundef i8 @\"abi", "fastcc i8 @\"abi"),
    ("call void @llvm.trap()", "musttail call void @llvm.trap()"),
    ("declare void @llvm.trap() #3", "declare void @exit(i32) #3"),
    ("declare void @llvm.trap() #3", "@table = internal constant [2 x i8] zeroinitializer"),
    ("declare void @llvm.trap() #3", "module asm \"nop\""),
    ("declare void @llvm.trap() #3", "%pair = type { i8, i8 }"),
    ("\"probe-stack\"=\"inline-asm\" ", "\"probe-stack\"=\"inline-asm\" \"target-features\"=\"+avx\" "),
    ("attributes #3 = { cold", "attributes #3 = { naked"),
    ("!1 = !{}", "!1 = !{i64 8}"),
    ("!1 = !{}", "!llvm.module.flags = !{!1}"),
    ("source_filename = \"rattle\"", "source_filename = \"another\""),
    ("target triple = \"x86_64-unknown-linux-gnu\"", "target triple = \"riscv64-unknown-linux-gnu\""),
    ("target triple = \"x86_64-unknown-linux-gnu\"\n", "\n"),
    ("i128:128-f80:128-n8", "i128:128-n8"),
    ("@crew_store(", "@store("),
    ("{ i64, i64 } @crew_store", "{ i64, double } @crew_store"),
    ("i8 noundef %a2, ptr", "i8 noundef inreg %a2, ptr"),
    ("ptr noundef byval([4688 x i8]) align 8", "ptr noundef byval([4688 x i8]) align 16"),
    ("ret ptr %a0", "ret ptr %a1"),
    ("store ptr %a3, ptr %r0, align 8", "br label %start"),
    ("store ptr %a3, ptr %r0, align 8", "ret ptr %a0"),
    ("\n!2 = !{i8 0, i8 2}\n", "\ndefine internal void @\"x\"() #0 {\n"),
];

#[test]
fn it_stops_on_what_it_does_not_know() {
    for (old, new) in NOT_KNOWN {
        let module = MODULE.replace(old, new);
        assert_ne!(&module, MODULE, "{old}");
        for target in ALL {
            assert!(retarget(&module, target).is_err(), "{target}: {new}");
        }
    }
}
