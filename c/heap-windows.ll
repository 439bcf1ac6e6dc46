; The three functions of heap.c for Windows, where C's rules hand a pair back in another way than the compiled code expects it. See heap.c.
target triple = "x86_64-w64-windows-gnu"

@nothing = internal global [16 x i8] zeroinitializer, align 16

declare ptr @malloc(i64)
declare ptr @realloc(ptr, i64)
declare void @free(ptr)

define internal { i64, ptr } @answer(ptr %at) {
  %is_taken = icmp ne ptr %at, null
  %told = zext i1 %is_taken to i64
  %place = select i1 %is_taken, ptr %at, ptr @nothing
  %half = insertvalue { i64, ptr } undef, i64 %told, 0
  %pair = insertvalue { i64, ptr } %half, ptr %place, 1
  ret { i64, ptr } %pair
}

define { i64, ptr } @rattle_alloc(i64 %bytes, i64 %align) {
  %is_none = icmp eq i64 %bytes, 0
  %wanted = select i1 %is_none, i64 %align, i64 %bytes
  %at = call ptr @malloc(i64 %wanted)
  %pair = call { i64, ptr } @answer(ptr %at)
  ret { i64, ptr } %pair
}

define { i64, ptr } @rattle_realloc(ptr %old, i64 %kept, i64 %bytes, i64 %align) {
  %is_none = icmp eq i64 %bytes, 0
  %wanted = select i1 %is_none, i64 %align, i64 %bytes
  %at = call ptr @realloc(ptr %old, i64 %wanted)
  %pair = call { i64, ptr } @answer(ptr %at)
  ret { i64, ptr } %pair
}

define void @rattle_dealloc(ptr %at) {
  call void @free(ptr %at)
  ret void
}
