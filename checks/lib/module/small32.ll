@static.0 = private unnamed_addr constant [4 x i8] c"\01\02\FF\00", align 4
@static.1 = private unnamed_addr constant [8 x i8] zeroinitializer, align 8
define internal { i8, ptr } @"small::first::<#1>"(ptr noundef %a0, i64 noundef %a1) #0 {
start:
  %r0 = alloca [16 x i8], align 8
  %r1 = alloca i64, align 8
  call void @llvm.memset.p0.i32(ptr align 8 %r0, i8 0, i32 16, i1 false)
  %w1 = ptrtoint ptr %a0 to i64
  store i64 %w1, ptr %r1, align 8
  %w2 = load i64, ptr %r1, align 8
  %r2 = inttoptr i64 %w2 to ptr
  %r3 = icmp ult i64 %a1, 3
  br i1 %r3, label %near, label %far
near:
  %w3 = trunc i64 %a1 to i32
  %r4 = getelementptr i8, ptr %r2, i32 %w3
  %r5 = getelementptr i8, ptr %r0, i32 8
  %w4 = ptrtoint ptr %r4 to i64
  store i64 %w4, ptr %r5, align 8
  store i8 1, ptr %r0, align 8
  br label %told
far:
  switch i64 %a1, label %never [ i64 3, label %told i64 4, label %told ]
told:
  %w5 = load i8, ptr %r0, align 8
  %w6 = getelementptr i8, ptr %r0, i32 8
  %w7 = load i64, ptr %w6, align 8
  %w8 = inttoptr i64 %w7 to ptr
  %w9 = insertvalue { i8, ptr } poison, i8 %w5, 0
  %r6 = insertvalue { i8, ptr } %w9, ptr %w8, 1
  ret { i8, ptr } %r6
never:
  unreachable
}

define internal void @"small::moved"(ptr noundef %a0, ptr noundef %a1) #0 {
start:
  %r0 = load i64, ptr %a0, align 8
  store i64 %r0, ptr %a1, align 8
  call void @llvm.memmove.p0.p0.i32(ptr align 8 %a0, ptr align 8 %a1, i32 8, i1 false)
  ret void
}

define internal void @"small::far"(ptr noundef %a0, i64 noundef %a1) #0 {
start:
  %r0 = alloca [70016 x i8], align 8
  %r1 = getelementptr i8, ptr %r0, i32 70004
  call void @llvm.memmove.p0.p0.i32(ptr align 4 %r1, ptr align 1 %a0, i32 8, i1 false)
  %r2 = getelementptr i8, ptr %r0, i32 16
  %w1 = load i64, ptr %r2, align 8
  %w2 = getelementptr i8, ptr %r2, i32 8
  %w3 = load i32, ptr %w2, align 4
  %w4 = insertvalue { i64, i32 } poison, i64 %w1, 0
  %r3 = insertvalue { i64, i32 } %w4, i32 %w3, 1
  %w5 = extractvalue { i64, i32 } %r3, 0
  store i64 %w5, ptr %r0, align 8
  %w6 = extractvalue { i64, i32 } %r3, 1
  %w7 = getelementptr i8, ptr %r0, i32 8
  store i32 %w6, ptr %w7, align 4
  %r4 = icmp eq i64 %a1, 0
  br i1 %r4, label %one, label %two
one:
  store i64 7, ptr %a0, align 8
  br label %two
two:
  ret void
}

define noundef signext i32 @usbdisk_small_(ptr noundef %a0, i64 noundef %a1) #0 {
start:
  %r0 = alloca [16 x i8], align 8
  %r1 = alloca [16 x i8], align 8
  %r2 = call { i8, ptr } @"small::first::<#1>"(ptr @static.0, i64 %a1)
  %r3 = extractvalue { i8, ptr } %r2, 0
  %r4 = extractvalue { i8, ptr } %r2, 1
  %r5 = trunc i8 %r3 to i1
  br i1 %r5, label %some, label %none
some:
  %r6 = ptrtoint ptr %r4 to i64
  %r7 = load i8, ptr %r4, align 1
  %r8 = zext i8 %r7 to i32
  %r9 = add nuw i32 %r8, 5
  call void @"small::far"(ptr %a0, i64 %a1)
  %w1 = call i64 @usbdisk_alloc(i64 16, i64 8)
  %w2 = and i64 %w1, 4294967295
  %w3 = lshr i64 %w1, 32
  %w4 = insertvalue { i64, i64 } poison, i64 %w3, 0
  %r10 = insertvalue { i64, i64 } %w4, i64 %w2, 1
  %r11 = extractvalue { i64, i64 } %r10, 0
  %w5 = extractvalue { i64, i64 } %r10, 0
  store i64 %w5, ptr %r0, align 8
  %w6 = extractvalue { i64, i64 } %r10, 1
  %w7 = getelementptr i8, ptr %r0, i32 8
  store i64 %w6, ptr %w7, align 8
  store i64 %r6, ptr %r1, align 8
  call void @"small::moved"(ptr %r0, ptr %r1)
  %r12 = call i64 @llvm.ctlz.i64(i64 %r11, i1 false)
  ret i32 %r9
none:
  call void @llvm.trap()
  unreachable
}

; A module with each form that the reader of modules knows: a list of words in memory, of which a call tells the sum.
declare void @llvm.memset.p0.i32(ptr writeonly captures(none), i8, i32, i1 immarg) #2
declare void @llvm.memmove.p0.p0.i32(ptr writeonly captures(none), ptr readonly captures(none), i32, i1 immarg) #2
declare void @llvm.trap() #3
declare i64 @llvm.ctlz.i64(i64, i1 immarg) #2
attributes #0 = { nounwind optsize }
attributes #1 = { nobuiltin nounwind }
attributes #2 = { nocallback nofree nounwind willreturn memory(argmem: readwrite) }
attributes #3 = { cold noreturn nounwind memory(inaccessiblemem: write) }
!llvm.ident = !{!0}
!0 = !{!"small"}
!1 = !{}
declare i64 @usbdisk_alloc(i64, i64)
declare i64 @usbdisk_realloc(ptr, i64, i64, i64)

