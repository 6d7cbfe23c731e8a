; Rattle's heap on a C library, for any target: as in the toolchain, which has it compiled for one.
@nothing = internal global [16 x i8] zeroinitializer, align 16
declare ptr @malloc(i64)
declare ptr @realloc(ptr, i64)
declare void @free(ptr)

define internal { i64, i64 } @tried(ptr %p) alwaysinline {
  %none = icmp eq ptr %p, null
  %q = select i1 %none, ptr @nothing, ptr %p
  %ok = select i1 %none, i64 0, i64 1
  %at = ptrtoint ptr %q to i64
  %a = insertvalue { i64, i64 } poison, i64 %ok, 0
  %b = insertvalue { i64, i64 } %a, i64 %at, 1
  ret { i64, i64 } %b
}

define hidden { i64, i64 } @rattle_alloc(i64 %n, i64 %a) nounwind {
  %zero = icmp eq i64 %n, 0
  %size = select i1 %zero, i64 %a, i64 %n
  %p = call ptr @malloc(i64 %size)
  %r = call { i64, i64 } @tried(ptr %p)
  ret { i64, i64 } %r
}

define hidden { i64, i64 } @rattle_realloc(ptr %old, i64 %kept, i64 %n, i64 %a) nounwind {
  %zero = icmp eq i64 %n, 0
  %size = select i1 %zero, i64 %a, i64 %n
  %p = call ptr @realloc(ptr %old, i64 %size)
  %r = call { i64, i64 } @tried(ptr %p)
  ret { i64, i64 } %r
}

define hidden void @rattle_dealloc(ptr %p) nounwind {
  call void @free(ptr %p)
  ret void
}
