; A module with each form that the reader of modules knows: a list of words in memory, of which a call tells the sum.
source_filename = "small"

@static.0 = private unnamed_addr constant [4 x i8] c"\01\02\FF\00", align 4
@static.1 = private unnamed_addr constant [8 x i8] zeroinitializer, align 8

define internal { i8, ptr } @"small::first::<#1>"(ptr noundef %a0, i64 noundef %a1) #0 {
start:
  %r0 = alloca [16 x i8], align 8
  %r1 = alloca ptr, align 8
  call void @llvm.memset.p0.i64(ptr %r0, i8 0, i64 16, i1 false)
  store ptr %a0, ptr %r1, align 8
  %r2 = load ptr, ptr %r1, align 8, !noundef !1
  %r3 = icmp ult i64 %a1, 3
  br i1 %r3, label %near, label %far

near:                                             ; preds = %start
  %r4 = getelementptr inbounds nuw i8, ptr %r2, i64 %a1
  %r5 = getelementptr i8, ptr %r0, i64 8
  store ptr %r4, ptr %r5, align 8
  store i8 1, ptr %r0, align 8
  br label %told

far:                                              ; preds = %start
  switch i64 %a1, label %never [
    i64 3, label %told
    i64 4, label %told
  ]

told:                                             ; preds = %near, %far, %far
  %r6 = load { i8, ptr }, ptr %r0, align 8
  ret { i8, ptr } %r6

never:                                            ; preds = %far
  unreachable
}

define internal void @"small::moved"(ptr noundef %a0, ptr noundef %a1) #0 {
start:
  %r0 = load i64, ptr %a0, align 8
  store i64 %r0, ptr %a1, align 8
  call void @llvm.memmove.p0.p0.i64(ptr %a0, ptr %a1, i64 8, i1 false)
  ret void
}

define internal void @"small::far"(ptr noundef %a0, i64 noundef %a1) #0 {
start:
  %r0 = alloca [70016 x i8], align 8
  %r1 = getelementptr i8, ptr %r0, i64 70004
  call void @llvm.memmove.p0.p0.i64(ptr %r1, ptr %a0, i64 8, i1 false)
  %r2 = getelementptr i8, ptr %r0, i64 16
  %r3 = load { i64, i32 }, ptr %r2, align 8
  store { i64, i32 } %r3, ptr %r0, align 8
  %r4 = icmp eq i64 %a1, 0
  br i1 %r4, label %one, label %two

one:                                              ; preds = %start
  store i64 7, ptr %a0, align 8
  br label %two

two:                                              ; preds = %one, %start
  ret void
}

define noundef signext i32 @usbdisk_small(ptr noundef %a0, i64 noundef %a1) #0 {
start:
  %r0 = alloca [16 x i8], align 8
  %r1 = alloca [16 x i8], align 8
  %r2 = call { i8, ptr } @"small::first::<#1>"(ptr @static.0, i64 %a1)
  %r3 = extractvalue { i8, ptr } %r2, 0
  %r4 = extractvalue { i8, ptr } %r2, 1
  %r5 = trunc i8 %r3 to i1
  br i1 %r5, label %some, label %none

some:                                             ; preds = %start
  %r6 = ptrtoaddr ptr %r4 to i64
  %r7 = load i8, ptr %r4, align 1
  %r8 = zext i8 %r7 to i32
  %r9 = add nuw i32 %r8, 5
  call void @"small::far"(ptr %a0, i64 %a1)
  %r10 = call [2 x i64] @rattle_alloc(i64 16, i64 8)
  %r11 = extractvalue [2 x i64] %r10, 0
  store [2 x i64] %r10, ptr %r0, align 8
  store i64 %r6, ptr %r1, align 8
  call void @"small::moved"(ptr %r0, ptr %r1)
  %r12 = call i64 @llvm.ctlz.i64(i64 %r11, i1 false)
  ret i32 %r9

none:                                             ; preds = %start
  call void @llvm.trap()
  unreachable
}

declare [2 x i64] @rattle_alloc(i64 noundef, i64 noundef) #1
declare void @llvm.memset.p0.i64(ptr writeonly captures(none), i8, i64, i1 immarg) #2
declare void @llvm.memmove.p0.p0.i64(ptr writeonly captures(none), ptr readonly captures(none), i64, i1 immarg) #2
declare void @llvm.trap() #3
declare i64 @llvm.ctlz.i64(i64, i1 immarg) #2

attributes #0 = { nounwind }
attributes #1 = { nobuiltin nounwind }
attributes #2 = { nocallback nofree nounwind willreturn memory(argmem: readwrite) }
attributes #3 = { cold noreturn nounwind memory(inaccessiblemem: write) }

!llvm.ident = !{!0}
!0 = !{!"small"}
!1 = !{}
